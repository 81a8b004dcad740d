"""How the trials of the desk tool call it and are run: every trial in a folder of its own, and each that fails is named."""
import json
import os
import pathlib
import subprocess
import sys
import tempfile


class Tool:
    """The programs that are tried: the tool, built to notice a wrong use of memory, and one with small limits."""

    program = small = ''


def ran(*words, tool=None, given=None, **more):
    done = subprocess.run([tool or Tool.program, *map(os.fsencode, map(str, words))], input=given, check=False,
                          **({'stdout': subprocess.PIPE, 'stderr': subprocess.PIPE} | more))
    assert b'Sanitizer' not in done.stderr and b'runtime error' not in done.stderr, done.stderr.decode()
    return done


def ends(status, words, *call, tool=None, given=None):
    """A call ends with this status and says these words, which may be several; what it says is returned."""
    done = ran(*call, tool=tool, given=given)
    text = (done.stdout + done.stderr).decode(errors='replace')
    assert done.returncode == status, f'{" ".join(map(str, call))} ended with {done.returncode} and not {status}:\n{text}'
    for word in [words] if isinstance(words, str) else words:
        assert word in text, f'{" ".join(map(str, call))}: no word of "{word}" in\n{text}'
    return text


def document(*call, given=None):
    """The document that a call prints, its status that of the call."""
    done = ran(*call, given=given)
    parsed = json.loads(done.stdout)
    assert parsed['status'] == done.returncode, (call, parsed['status'], done.returncode)
    return parsed


def document_of(name):
    return json.loads(pathlib.Path(name).read_text(encoding='utf-8'))


def empty():
    """Nothing is left in the folder `none`."""
    assert not os.listdir('none'), f'left behind: {os.listdir("none")}'


def run_one(trial):
    """Whether it fails."""
    try:
        trial()
    except (AssertionError, subprocess.CalledProcessError, json.JSONDecodeError, LookupError) as fault:
        line = fault.__traceback__
        while line.tb_next is not None and not line.tb_next.tb_frame.f_code.co_filename.endswith('desk_trials.py'):
            line = line.tb_next
        print(f'desk: {trial.__name__}, line {line.tb_lineno}: {str(fault)[:3000] or repr(fault)}', file=sys.stderr)
        return True
    return False


def run_all(words, trials, what):
    """By the words of the command line: the program, the small one, and the names of some trials or of all."""
    Tool.program, Tool.small = (str(pathlib.Path(word).resolve()) for word in words[:2])
    os.environ['ASAN_OPTIONS'] = 'detect_leaks=0'
    chosen = [trial for trial in trials if trial.__name__ in words[2:] or len(words) == 2]
    failed = 0
    for trial in chosen:
        with tempfile.TemporaryDirectory() as folder:
            os.chdir(folder)
            os.mkdir('none')
            failed += run_one(trial)
            os.chdir('/')
    if failed:
        sys.exit(f'desk: {failed} of the trials failed')
    print(f'desk: {len(chosen)} trials of {what}')
