"""Which library reads and writes a workbook, by the ending of its name."""
import importlib
import os
import sys

LIBRARIES = {".xlsx": ("xlsx_book", "openpyxl", "python3-openpyxl"), ".ods": ("ods_book", "odfpy", "python3-odf")}


def ending(path):
    return os.path.splitext(path)[1].lower()


def module_for(path):
    """The module that reads and writes the workbook; a line and the end of the script where its library is not installed."""
    if ending(path) not in LIBRARIES:
        sys.exit(f"{path}: a workbook's name ends in {' or '.join(LIBRARIES)}")
    module, library, package = LIBRARIES[ending(path)]
    try:
        return importlib.import_module(module)
    except ModuleNotFoundError as fault:
        if fault.name in (module, "sheet_files"):
            raise
        sys.exit(f"{path} needs the library {library}, which is not installed (Debian: apt install {package})")


def read(path):
    """The sheets with their rows of texts, the names as (sheet, name, text), and what is to be told of the workbook."""
    module = module_for(path)
    try:
        return module.read(path)
    except OSError as fault:
        sys.exit(f"{path}: {fault.strerror or fault}")
    except Exception as fault:
        sys.exit(f"{path} is no workbook that the library reads: {type(fault).__name__}: {fault}")
