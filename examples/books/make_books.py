#!/usr/bin/env python3
"""Makes bakery.xlsx and bakery.ods in this folder: the bakery with a Solver model in it, as a planner would have it.

usage: make_books.py

The .xlsx is written by openpyxl with the names that Excel's Solver keeps, hidden and with the sheet as their scope. The .ods is made
by LibreOffice itself (soffice and the module uno), with the same names as one defines them by hand. The files are kept; the
script says how they came to be.
"""
import datetime
import os
import subprocess
import tempfile
import time
import zipfile

HERE = os.path.dirname(os.path.abspath(__file__))
PLAN = [
    ["Item", "Bread", "Cake", "Used", "Available"],
    ["Batches", 0, 0],
    ["Profit", 2.5, 4.1, "=SUMPRODUCT(B2:C2,B3:C3)"],
    ["Flour", 2, 3, "=SUMPRODUCT($B$2:$C$2,B4:C4)", "=data!B1"],
    ["Oven", 1, 2, "=SUMPRODUCT($B$2:$C$2,B5:C5)", "=data!B2"],
]
DATA = [["flour", 24], ["oven hours", 14.5], ["as of", datetime.date(2026, 3, 2)], ["code", "0012"], ["share", 0.075]]
NAMES = [("adj", "$B$2:$C$2"), ("opt", "$D$3"), ("typ", "1"), ("num", "2"),
         ("lhs1", "$D$4:$D$5"), ("rel1", "1"), ("rhs1", "$E$4:$E$5"), ("lhs2", "$B$2:$C$2"), ("rel2", "4"), ("rhs2", "integer"),
         ("neg", "1"), ("eng", "2"), ("tol", "0.01")]


def with_sheet(text, mark):
    return f"{mark[0]}plan{mark[1]}{text}" if text.startswith("$") else text


def make_xlsx(path):
    import openpyxl
    from openpyxl.workbook.defined_name import DefinedName

    book = openpyxl.Workbook()
    plan, data = book.active, book.create_sheet("data")
    plan.title = "plan"
    for sheet, rows in ((plan, PLAN), (data, DATA)):
        for row in rows:
            sheet.append(row)
    plan["B3"].number_format = plan["C3"].number_format = plan["D3"].number_format = "$#,##0.00"
    data["B3"].number_format, data["B5"].number_format = "yyyy-mm-dd", "0.0%"
    for name, text in NAMES:
        book.defined_names.append(DefinedName(f"solver_{name}", localSheetId=0, hidden=True, attr_text=with_sheet(text, ("", "!"))))
    book.save(path)
    write_as_excel(path)


def write_as_excel(path):
    """Writes the number 4.1 with the 17 digits with which Excel keeps it."""
    with zipfile.ZipFile(path) as kept:
        parts = {name: kept.read(name) for name in kept.namelist()}
    with zipfile.ZipFile(path, "w", zipfile.ZIP_DEFLATED) as book:
        for name, part in parts.items():
            book.writestr(name, part.replace(b"<v>4.1</v>", b"<v>4.0999999999999996</v>"))


def office(home):
    """LibreOffice without windows, and its desktop."""
    import uno

    pipe = f"make_books{os.getpid()}"
    process = subprocess.Popen(["soffice", "--headless", "--norestore", f"--accept=pipe,name={pipe};urp;", f"-env:UserInstallation=file://{home}"],
                               stdout=subprocess.DEVNULL, stderr=subprocess.DEVNULL)
    local = uno.getComponentContext()
    resolver = local.ServiceManager.createInstanceWithContext("com.sun.star.bridge.UnoUrlResolver", local)
    for _ in range(240):
        try:
            context = resolver.resolve(f"uno:pipe,name={pipe};urp;StarOffice.ComponentContext")
            return process, context.ServiceManager.createInstanceWithContext("com.sun.star.frame.Desktop", context)
        except Exception:
            time.sleep(0.25)
    raise SystemExit("LibreOffice does not start")


def fill(document, sheet, rows, starts):
    """Puts the rows into a sheet; dates as numbers, texts of digits as texts."""
    for r, row in enumerate(rows):
        for c, value in enumerate(row):
            cell = sheet.getCellByPosition(c, r)
            if isinstance(value, datetime.date):
                cell.setValue((value - datetime.date(1899, 12, 30)).days)
                cell.NumberFormat = document.NumberFormats.queryKey("YYYY-MM-DD", starts, False)
            elif isinstance(value, str) and value.startswith("="):
                cell.setFormula(value.replace(",", ";").replace("data!", "$data."))
            elif isinstance(value, str):
                cell.setString(value)
            else:
                cell.setValue(float(value))


def make_ods(path):
    import uno  # so that the imports below are found
    from com.sun.star.beans import PropertyValue
    from com.sun.star.lang import Locale
    from com.sun.star.table import CellAddress

    with tempfile.TemporaryDirectory() as home:
        process, desktop = office(home)
        hidden = PropertyValue(Name="Hidden", Value=True)
        document = desktop.loadComponentFromURL("private:factory/scalc", "_blank", 0, (hidden,))
        plan = document.Sheets.getByIndex(0)
        plan.Name = "plan"
        document.Sheets.insertNewByName("data", 1)
        for sheet, rows in ((document.Sheets.getByName("data"), DATA), (plan, PLAN)):
            fill(document, sheet, rows, Locale("en", "US", ""))
        for name, text in NAMES:
            plan.NamedRanges.addNewByName(f"solver_{name}", with_sheet(text, ("$", ".")), CellAddress(), 0)
        document.storeToURL("file://" + path, (PropertyValue(Name="FilterName", Value="calc8"),))
        document.close(True)
        try:
            desktop.terminate()
        except Exception:
            pass
        process.wait(60)


if __name__ == "__main__":
    make_xlsx(os.path.join(HERE, "bakery.xlsx"))
    make_ods(os.path.join(HERE, "bakery.ods"))
