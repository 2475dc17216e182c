#!/usr/bin/env python3
"""Runs the tool as a user would, and compares output, files and exit status with what documents 000 and 01 say.

    cli/tests/run.py build/lanyardrove [NAME]..   runs all tests, or those whose name holds a NAME
"""
import os
import sys
import tempfile
import traceback

if len(sys.argv) < 2:
    sys.exit(__doc__)
sys.dont_write_bytecode = True
import support  # noqa: E402
import test_arguments, test_check, test_formats, test_pipes, test_inputs, test_unassigned, test_dump, test_asm, test_repair, test_draw, test_copy, test_diff, test_translate, test_edit, test_lint, test_files, test_report, test_steps, test_browser, test_readme, test_start, test_header, test_install  # noqa: E401, E402, F401


def passes(function):
    with tempfile.TemporaryDirectory() as folder:
        os.chdir(folder)
        try:
            function()
            return True
        except Exception as fault:
            print(f"FAILED {function.__name__}: {fault}")
            if not isinstance(fault, AssertionError):
                traceback.print_exc()
            return False
        finally:
            os.chdir(support.TOP)


def main():
    names = sys.argv[2:]
    chosen = [function for function in support.TESTS if not names or any(name in function.__name__ for name in names)]
    failed = [function for function in chosen if not passes(function)]
    print(f"{len(chosen) - len(failed)} passed, {len(failed)} failed")
    return 1 if failed or not chosen else 0


if __name__ == "__main__":
    sys.exit(main())
