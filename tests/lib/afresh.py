"""Runs over new journals, for the comparisons."""
import os
import shutil
import subprocess


def renew(program, catalog, key, folder):
    """The journals in a folder are made anew, and hold no records. Where the files are refused there are none."""
    shutil.rmtree(os.path.join(folder, "journals"), ignore_errors=True)
    subprocess.run([program, "init", catalog, key], stdin=subprocess.DEVNULL, capture_output=True, cwd=folder)


def run_afresh(program, catalog, key, script, folder):
    renew(program, catalog, key, folder)
    return subprocess.run([program, "run", catalog, key], input=script, capture_output=True, cwd=folder)
