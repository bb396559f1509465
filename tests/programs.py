"""Programs that a case makes of the one that is tested, and runs."""
import re
import subprocess


def put_program(path, content):
    """Writes a program by a process of its own. Were it written here, each process that another case starts meanwhile would have it
    open to write for a moment, and nobody could run it (ETXTBSY).
    """
    subprocess.run(["sh", "-c", 'cat > "$1" && chmod 755 "$1"', "sh", path], input=content, check=True)


def without_stamp(content):
    """A program as it was built."""
    return re.sub(rb"\nlambda_broker-stamp [^\n]*\n\Z", b"", content)
