#!/usr/bin/env python3
"""Runs the scripts of tools/ over the files of this folder, and compares what they print and write.

usage: run_tools.py PROGRAM

Workbooks go there and back (books/), models go to LP and MPS text and from words to names and back (models/), answers are reported,
doubtful texts are listed (slips/). The certificates of some workbooks are made, and checked by `optcheck` as it was built beside PROGRAM. Where
a library isn't installed, or `optcheck` isn't built, a line says what is left out. Ends with 1 where anything failed.
"""
import importlib.util
import os
import shutil
import subprocess
import sys
import tempfile
import zipfile

import odd_books

HERE = os.path.dirname(os.path.abspath(__file__))
TOOLS = os.path.join(HERE, "..", "tools")
CERTIFIED = {"mix": "optimal 31", "diet": "optimal 67131/11540", "jobs": "optimal 76", "knapsack": "optimal 1949", "fraction": "optimal 7/3",
             "infeasible": "infeasible", "unbounded": "unbounded"}
LIBRARIES = {"xlsx": "openpyxl", "ods": "odf"}


def read(*path):
    with open(os.path.join(HERE, *path), encoding="utf-8", newline="") as file:
        return file.read()


def tool(name, *words, text="", folder=HERE, status=0, told=None):
    """What a script prints; AssertionError where it ends with another status, or tells something else, than what is wanted."""
    words = [sys.executable, os.path.join(TOOLS, name + ".py"), *words]
    run = subprocess.run(words, cwd=folder, input=text, capture_output=True, encoding="utf-8")
    assert run.returncode == status, f"{name} ended with {run.returncode}: {run.stdout}{run.stderr}"
    assert status == 0 or run.stderr.count("\n") <= 1, f"{name} told more than a line: {run.stderr}"
    assert told is None or run.stderr == told, f"{name} told {run.stderr!r}, and not {told!r}"
    return run.stdout


def same(what, wanted, got):
    assert wanted == got, f"{what}: wanted {wanted!r}, got {got!r}"


def compare_folder(folder, wanted):
    for file in wanted:
        same(file, wanted[file], read(folder, file))
    same("files", sorted(wanted), sorted(os.listdir(folder)))


def formats_of(path):
    """The format of each cell of a workbook, by its own library: the decision cells have those of their neighbours."""
    if path.endswith(".xlsx"):
        import openpyxl

        return [[(cell.coordinate, cell.number_format) for row in sheet.iter_rows() for cell in row] for sheet in openpyxl.load_workbook(path)]
    from odf.opendocument import load
    from odf.table import TableCell

    cells = load(path).spreadsheet.getElementsByType(TableCell)
    return [cell.getAttribute("stylename") for cell in cells for _ in range(int(cell.getAttribute("numbercolumnsrepeated") or 1))]


def put_back(book, folder, out, wanted, cells):
    """The decision cells of the folder go into a copy of the workbook, and nothing else does."""
    printed = "".join(f"plan!{place} {text}\n" for place, text in zip(("B2", "C2"), cells))
    same("to_workbook", printed, tool("to_workbook", book, folder, out))
    again = folder + "_again"
    tool("from_workbook", out, again)
    mark = "of:" if book.endswith(".ods") else ""
    texts = ",".join(mark + text if text.startswith("=") else text for text in cells)
    compare_folder(again, {**wanted, "plan.csv": wanted["plan.csv"].replace("Batches,0,0", "Batches," + texts)})
    same("formats", formats_of(os.path.join(HERE, book)), formats_of(out))


def there_and_back(kind, program):
    """A workbook becomes files, the program solves and saves them, and the decision cells go back; then with a fraction in them."""
    book = os.path.join("books", "bakery." + kind)
    home = os.path.join("books", "from_" + kind)
    wanted = {file: read(home, file) for file in ("plan.csv", "data.csv", "names.csv")}
    with tempfile.TemporaryDirectory() as place:
        folder, out = os.path.join(place, "files"), os.path.join(place, "out." + kind)
        same("command", "opensolver --names names.csv plan.csv data.csv\n", tool("from_workbook", book, folder))
        compare_folder(folder, wanted)
        words = [program, "--names", "names.csv", "plan.csv", "data.csv"]
        run = subprocess.run(words, cwd=folder, input="solve,plan\nsave\n", capture_output=True, encoding="utf-8")
        same("answers", "optimal 31.4\nsaved 1\n", run.stdout)
        put_back(book, folder, out, wanted, ("6", "4"))
        written(folder, "plan.csv", wanted["plan.csv"].replace("Batches,0,0", "Batches,=7/3,2.5"))
        shutil.rmtree(folder + "_again")
        put_back(book, folder, out, wanted, ("=7/3", "2.5"))
        tool("to_workbook", book, folder, book, status=1)
        tool("from_workbook", os.path.join("mix", "plan.csv"), folder, status=1)


def written(folder, file, text):
    with open(os.path.join(folder, file), "w", encoding="utf-8", newline="") as it:
        it.write(text)


def odd_workbook(kind, make, files, told, place):
    """A workbook of odd cells becomes the files that it must, and these put back change nothing but a decision cell."""
    book, out, folder, again = (os.path.join(place, name) for name in ("odd." + kind, "out." + kind, "files", "again"))
    make(book)
    tool("from_workbook", book, folder, told=told)
    compare_folder(folder, files)
    written(folder, "plan.csv", files["plan.csv"].replace("0,0", "0,0.30000000000000004"))
    same("put back", "plan!B1 0.30000000000000004\n", tool("to_workbook", book, folder, out, told=""))
    tool("from_workbook", out, again, told=told)
    compare_folder(again, {**files, "plan.csv": read(folder, "plan.csv")})
    written(folder, "plan.csv", files["plan.csv"].replace("0,0", "0,0.1234567890123456789"))
    rounded = "plan!B1 is 0.12345678901234568 in the copy, in place of 0.1234567890123456789\n"
    tool("to_workbook", book, folder, out, told=rounded)
    written(folder, "plan.csv", files["plan.csv"].replace("0,0", "0,3 kg"))
    tool("to_workbook", book, folder, out, status=1, told="plan!B1 holds 3 kg, which is no number\n")
    written(folder, "names.csv", "plan,solver_adj\n")
    tool("to_workbook", book, folder, out, status=1, told="record 1 of the names has neither three nor four fields: ['plan', 'solver_adj']\n")


def odd_xlsx(_):
    with tempfile.TemporaryDirectory() as place:
        odd_workbook("xlsx", odd_books.make_xlsx, odd_books.XLSX_FILES, odd_books.XLSX_TOLD, place)
        with zipfile.ZipFile(os.path.join(place, "out.xlsx")) as out:
            assert b'fullCalcOnLoad="1"' in out.read("xl/workbook.xml"), "nothing asks for the formulas to be computed anew"
        book, folder = os.path.join(place, "odd.xlsx"), os.path.join(place, "files")
        written(folder, "names.csv", "plan,solver_adj,$A$5:$B$5\n")
        written(folder, "plan.csv", odd_books.XLSX_FILES["plan.csv"].replace("title", "1,2"))
        hidden = "plan!B5 is the hidden part of a merged cell, into which nothing can be put\n"
        tool("to_workbook", book, folder, os.path.join(place, "out.xlsx"), status=1, told=hidden)


def odd_ods(_):
    with tempfile.TemporaryDirectory() as place:
        odd_workbook("ods", odd_books.make_ods, odd_books.ODS_FILES, "", place)
        book, folder = os.path.join(place, "odd.ods"), os.path.join(place, "odd")
        for name, told in (("../odd", "a sheet is called ../odd, and no file can be called so: give it another name\n"),
                           ("Names", "a sheet is called names, and its file would be that of the names: give it another name\n")):
            odd_books.make_ods(book, f'<table:table table:name="{name}"/>')
            tool("from_workbook", book, folder, status=1, told=told)
        odd_books.make_ods(book, '<table:table table:name="-x"/>')
        same("dash", "opensolver --names names.csv ./-x.csv\n", tool("from_workbook", book, folder))
        tool("from_workbook", book, book, status=1)


def texts_of_models(program):
    for name in ("bakery", "reached", "constant"):
        for kind in ("lp", "mps"):
            same(f"{name}.{kind}", read("models", f"{name}.{kind}"), tool("to_lp", kind, text=read("models", name + ".model")))
    tool("to_lp", "lp", text="infeasible\n", status=1)
    bakery = read("models", "bakery.model")
    slips = (("4*plan!C2 + 0", "4*plan!C2 + ? + 0"), ("cell plan!C2 integer 0 -\n", ""), ("end\n", "different plan!B2 plan!C2\nend\n"))
    for text in (2 * bakery, *(bakery.replace(*slip) for slip in slips)):
        tool("to_lp", "mps", text=text, status=1)


def words_and_names(program):
    for name in ("bakery", "all_words"):
        words, names = read("models", name + ".words"), read("models", name + "_names.csv")
        same(name, names, tool("say_names", "plan", text=words))
        same(name, words, tool("say_names", "--read", "plan", text=names))
    same("mix", read("models", "bakery.words"), tool("say_names", "--read", "plan", text=read("mix", "names.csv")))
    for words in ("max D3\n", "max 5 D3\nchange B2\n", "reach D3\nchange B2\n", "max D3\nchange B2\nD4 < 5\n"):
        tool("say_names", "plan", text=words, status=1)
    tool("say_names", "--read", "plan", text="plan,solver_adj\n", status=1)


def reports(program):
    mix = [os.path.join("mix", file) for file in ("names.csv", "plan.csv", "data.csv")]
    same("mix", read("models", "bakery.report"), tool("answer_report", program, "plan", *mix))
    drivers = [os.path.join("infeasible", file) for file in ("names.csv", "plan.csv")]
    same("infeasible", read("models", "infeasible.report"), tool("answer_report", program, "plan", *drivers))
    with tempfile.TemporaryDirectory() as place:
        written(place, "names.csv", read("infeasible", "names.csv").replace("rhs2,6", "rhs2,7"))
        names = os.path.join(place, "names.csv")
        same("one more driver", read("models", "drivers.report"), tool("answer_report", program, "plan", names, drivers[1]))
        tricky_sheet(program, place)


def tricky_sheet(program, place):
    """A report of a sheet whose name has an apostrophe, a comma and blanks, with an expression with a comma as a right side."""
    sheet = "it's so, here"
    names = [("adj", "$A$1"), ("opt", "$A$1"), ("num", "1"), ("lhs1", "$A$1"), ("rel1", "1"), ("rhs1", "MIN(7,9)")]
    written(place, "names.csv", "".join(f'"{sheet}",solver_{name},"{text}"\n' for name, text in names))
    written(place, sheet + ".csv", "0\n")
    cell = "'it''s so, here'!A1"
    report = f"optimal 7\n{cell} = 7\nconstraint 1: {cell} = 7 <= 7 (MIN(7,9)), binding\n"
    same("tricky sheet", report, tool("answer_report", program, sheet, "names.csv", sheet + ".csv", folder=place))


def doubts(program):
    slips = os.path.join(HERE, "slips")
    sheets = sorted(f"{slip}/plan.csv" for slip in os.listdir(slips) if os.path.isdir(os.path.join(slips, slip)))
    same("slips", read("slips", "doubtful.txt"), tool("doubtful", *sheets, folder=slips, status=1))
    same("mix", "", tool("doubtful", "mix/plan.csv", "mix/data.csv", "mix/names.csv"))
    with tempfile.TemporaryDirectory() as place:
        written(place, "wide.csv", "\uff11\uff12,12\n")
        same("wide digits", "wide.csv A1: '\uff11\uff12' is a text and looks like a number in another spelling\n",
             tool("doubtful", "wide.csv", folder=place, status=1))
        written(place, "quote.csv", '"' + 200000 * "a")
        tool("doubtful", "quote.csv", folder=place, status=1)


def certificates(program):
    """Certificates by each picker; `optcheck` says yes to each, or says nothing where it isn't built."""
    checker = os.path.join(os.path.dirname(program), "..", "..", "optcheck", "out", "optcheck")
    if not os.path.exists(checker):
        print("certificates: not checked, since optcheck isn't built")
    for name, said in CERTIFIED.items():
        folder = os.path.join(HERE, name)
        sheets = sorted((file for file in os.listdir(folder) if file.endswith(".csv") and file not in ("names.csv", "script.csv")),
                        key=lambda file: file == "data.csv")
        for pick in ("depth", "best", "oldest"):
            words = [program, "--names", "names.csv", "--pick", pick, *sheets]
            made = subprocess.run(words, cwd=folder, input=f"cert,{sheets[0][:-4]}\n", stdout=subprocess.PIPE, encoding="utf-8").stdout
            same(name, f"cert {said}", made.split("\n")[0])
            if os.path.exists(checker):
                with tempfile.TemporaryDirectory() as place:
                    written(place, "cert.txt", made)
                    words = [checker, "--names", "names.csv", "--cert", os.path.join(place, "cert.txt"), *sheets]
                    same(name, f"yes {said}\n", subprocess.run(words, cwd=folder, stdout=subprocess.PIPE, encoding="utf-8").stdout)
            if (name, pick) == ("mix", "depth"):
                same("cert.txt", read("mix", "cert.txt"), made)


def main(program):
    tests = [(f"bakery.{kind} there and back", lambda program, kind=kind: there_and_back(kind, program), LIBRARIES[kind]) for kind in LIBRARIES]
    tests += [("an odd workbook of Excel", odd_xlsx, LIBRARIES["xlsx"]), ("an odd workbook of LibreOffice", odd_ods, LIBRARIES["ods"])]
    tests += [("LP and MPS texts", texts_of_models, None), ("words and names", words_and_names, None),
              ("answer reports", reports, None), ("doubtful texts", doubts, None), ("certificates", certificates, None)]
    failed = 0
    for name, test, library in tests:
        if library and importlib.util.find_spec(library) is None:
            print(f"{name}: left out, since {sys.executable} has no library {library}")
            continue
        try:
            test(program)
            print(f"{name}: as expected")
        except AssertionError as fault:
            failed += 1
            print(f"{name}: {fault}")
    sys.exit(f"{failed} of {len(tests)} failed" if failed else None)


if __name__ == "__main__":
    if len(sys.argv) != 2:
        sys.exit(__doc__)
    main(os.path.abspath(sys.argv[1]))
