"""Workbooks with odd cells and names in them, made anew for each test, and what tools/from_workbook.py must make of them."""
import zipfile

ODS_NAMESPACES = " ".join(f'xmlns:{short}="urn:oasis:names:tc:opendocument:xmlns:{name}:1.0"' for short, name in
                          (("office", "office"), ("table", "table"), ("text", "text")))
ODS_MANIFEST = """<?xml version="1.0" encoding="UTF-8"?>
<m:manifest xmlns:m="urn:oasis:names:tc:opendocument:xmlns:manifest:1.0">
<m:file-entry m:full-path="/" m:media-type="application/vnd.oasis.opendocument.spreadsheet"/>
<m:file-entry m:full-path="content.xml" m:media-type="text/xml"/></m:manifest>"""

XLSX_FILES = {
    "plan.csv": '''0,0,,,"=""0012""","=""TRUE""","=""=A1""","say ""hi"",
twice"
46083.123456789,60,9999999,0.075,0.30000000000000004,TRUE,=#N/A
=SUM(A2:B2*{1;2}),=A2+1
""
title
""
,,last
''',
    "My Plan.csv": "7\n",
    "it's.me.csv": "8\n",
    "names.csv": '''plan,solver_adj,'plan'!$A$1:$B$1
My Plan,solver_opt,'My Plan'!$A$1
,solver_adj,#REF!
,cost,'it''s.me'!$A$1
,beside,plan!B2
''',
}
XLSX_TOLD = """the name solver_adj belongs to the whole workbook and is not read as the Solver's: give it a sheet as its scope
the name beside is plan!B2, which in the workbook moves with the cell that uses it, and here does not
"""


def make_xlsx(path):
    """A workbook by openpyxl: odd texts, dates that are none, 17 digits, a comment, a style far away, and names of all kinds."""
    import openpyxl
    from openpyxl.comments import Comment
    from openpyxl.workbook.defined_name import DefinedName

    book = openpyxl.Workbook()
    plan = book.active
    plan.title = "plan"
    plan.append([0, 0, None, None, "0012", "TRUE", "text", 'say "hi",\ntwice'])
    plan["G1"].value, plan["G1"].data_type = "=A1", "s"
    plan.append([46083.123456789, 60, 9999999, 0.075, None, True, "#N/A"])
    for cell in (plan["A2"], plan["B2"], plan["C2"]):
        cell.number_format = "yyyy-mm-dd hh:mm"
    plan["E2"].value, plan["E2"].data_type = "0.30000000000000004", "n"
    plan.append(["=SUM(A2:B2*{1,2})", "=A2+1"])
    plan["A5"], plan["C7"] = "title", "last"
    plan["C7"].comment = Comment("a comment", "a planner")
    plan.merge_cells("A5:B6")
    plan.cell(1048576, 16384).number_format = "0.00"
    for title, number in (("My Plan", 7), ("it's.me", 8)):
        book.create_sheet(title).append([number])
    for name, sheet, text in (("solver_adj", 0, "'plan'!$A$1:$B$1"), ("solver_opt", 1, "'My Plan'!$A$1"),
                              ("solver_adj", None, "#REF!"), ("cost", None, "'it''s.me'!$A$1"), ("beside", None, "plan!B2")):
        book.defined_names.append(DefinedName(name, localSheetId=sheet, hidden=sheet is not None, attr_text=text))
    book.calculation.fullCalcOnLoad = False
    book.save(path)


ODS_FILES = {
    "plan.csv": '''0,0,"=""0012""",a  b,"two
lines","=""5""",-0.5,44622.75,TRUE,2.5
7,7,,,1
7,7,,,1
""
of:=[.A2]*2,,"of:=""a;b"""
''',
    "names.csv": ''',cost,$plan.$A$2:$A$3
plan,solver_adj,$plan.$A$1:$B$1
plan,words,"""[.A1]"""
''',
}
ODS_BODY = """<table:calculation-settings><table:null-date table:date-value="1904-01-01"/></table:calculation-settings>
<table:table table:name="plan">
<table:table-row><table:table-cell office:value-type="float" office:value="0" table:number-columns-repeated="2"/>
<table:table-cell office:value-type="string"><text:p>0012</text:p></table:table-cell>
<table:table-cell office:value-type="string"><text:p>a<text:s text:c="2"/>b</text:p></table:table-cell>
<table:table-cell office:value-type="string"><text:p>two<text:line-break/>lines</text:p></table:table-cell>
<table:table-cell office:value-type="string" office:string-value="5"/>
<table:table-cell office:value-type="time" office:time-value="-PT12H00M00S"/>
<table:table-cell office:value-type="date" office:date-value="2026-03-03T18:00:00.000000000"/>
<table:table-cell office:value-type="boolean" office:boolean-value="true"/>
<table:table-cell office:value-type="currency" office:value="2.5"/></table:table-row>
<table:table-row table:number-rows-repeated="2">
<table:table-cell office:value-type="float" office:value="7" table:number-columns-repeated="2"/>
<table:table-cell table:number-columns-repeated="2"/>
<table:table-cell office:value-type="percentage" office:value="1"/></table:table-row>
<table:table-row><table:table-cell table:number-columns-repeated="16384"/></table:table-row>
<table:table-row><table:table-cell table:formula="of:=[.A2]*2" office:value-type="float" office:value="14"/>
<table:covered-table-cell/>
<table:table-cell table:formula="of:=&quot;a;b&quot;" office:value-type="string" office:string-value="a;b"/></table:table-row>
<table:table-row table:number-rows-repeated="1048571"><table:table-cell table:number-columns-repeated="16384"/></table:table-row>
<table:named-expressions>
<table:named-range table:name="solver_adj" table:base-cell-address="$plan.$A$1" table:cell-range-address="$plan.$A$1:.$B$1"/>
<table:named-expression table:name="words" table:base-cell-address="$plan.$A$1" table:expression="of:=&quot;[.A1]&quot;"/>
</table:named-expressions></table:table>
<table:table table:name="'file:///home/planner/other.ods'#$Sheet1"><table:table-row>
<table:table-cell office:value-type="float" office:value="9"/></table:table-row></table:table>
<table:named-expressions>
<table:named-range table:name="cost" table:base-cell-address="$plan.$A$1" table:cell-range-address="$plan.$A$2:.$A$3"/>
</table:named-expressions>"""


def make_ods(path, body=ODS_BODY):
    """A workbook of this body: cells and rows that stand for several, texts of all kinds, times, another first day, another document."""
    head = f'<?xml version="1.0" encoding="UTF-8"?><office:document-content {ODS_NAMESPACES} office:version="1.2"><office:body>'
    with zipfile.ZipFile(path, "w") as book:
        book.writestr("mimetype", "application/vnd.oasis.opendocument.spreadsheet")
        book.writestr("META-INF/manifest.xml", ODS_MANIFEST)
        text = f"{head}<office:spreadsheet>{body}</office:spreadsheet></office:body></office:document-content>"
        book.writestr("content.xml", text)
