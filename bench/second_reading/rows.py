"""Records of separated texts: how they are read, and how they are written."""
import re


class NotText(Exception):
    """The bytes stop being UTF-8 at this place."""

    def __init__(self, place):
        super().__init__(place)
        self.place = place


def text_of(data):
    """The bytes, each as one character, without one byte order mark at the head."""
    try:
        data.decode('utf-8')
    except UnicodeDecodeError as fault:
        raise NotText(fault.start) from fault
    return data.removeprefix(b'\xef\xbb\xbf').decode('latin-1')


def read(text):
    """The records; blank lines are skipped."""
    if '"' not in text:
        return [line.split(',') for line in re.split('[\r\n]', text) if line]
    records, place = [], 0
    while place < len(text):
        if text[place] in '\r\n':
            place += 1
            continue
        record, place = read_record(text, place)
        records.append(record)
    return records


def read_record(text, place):
    fields = []
    while True:
        field, place = read_field(text, place)
        fields.append(field)
        if place == len(text) or text[place] != ',':
            return fields, place
        place += 1


def read_field(text, place):
    """A field and the place of what ends it. A quote opens a quoted part at the field's head alone; behind its end all is as it stands."""
    parts = []
    if text[place:place + 1] == '"':
        place += 1
        while True:
            end = text.find('"', place)
            if end < 0:
                parts.append(text[place:])
                return ''.join(parts), len(text)
            parts.append(text[place:end])
            place = end + 1
            following = text[place:place + 1]
            if following == '"':
                parts.append('"')
                place += 1
            elif following in (',', '\r', '\n', ''):
                return ''.join(parts), place
            else:
                # What follows a closing quote goes on as a plain field, in which quotes stand for themselves.
                end = re.compile('[,\r\n]|\\Z').search(text, place).start()
                return ''.join(parts) + text[place:end], end
    end = re.compile('[,\r\n]|\\Z').search(text, place).start()
    return text[place:end], end


def write(records):
    return ''.join(','.join(map(written, record)) + '\n' if record != [''] else '""\n' for record in records)


def written(field):
    if re.search('[,"\r\n]', field):
        return '"' + field.replace('"', '""') + '"'
    return field
