"""An allocator that counts what a program asks of it, or refuses one request, as a library to be loaded before
others."""
import os
import subprocess


def build(folder):
    """Builds the library in a folder, by the C compiler, and returns its name."""
    source = f"{os.path.dirname(os.path.realpath(__file__))}/growths.c"
    library = f"{folder}/growths.so"
    subprocess.run(["cc", "-O1", "-shared", "-fPIC", "-o", library, source], check=True)
    return library
