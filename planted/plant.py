#!/usr/bin/env python3
"""Plants one bug at a time and lets the prover judge it.   plant.py REPOSITORY [WORKERS [LIST]]

REPOSITORY is a checkout that was proved; it is copied for each worker and not changed. Each line of LIST (bugs.txt, of the code; or
definitions.txt, of the definitions) is put into its file alone, and the crate is checked by `rt check`, and behind it the crates that the line names, up
to the first that is refused. Each crate is checked first as it stands. Printed: refused or STILL PROVED, the crate and file, the change, and the first line in
which the prover objects: that a fact fails, that a named step is gone, or that a text cannot be read, which is no refusal.
"""
import os
import re
import shutil
import subprocess
import sys
import tempfile
import threading

HERE = os.path.dirname(os.path.abspath(__file__))


def bugs(name):
    with open(os.path.join(HERE, name), encoding='utf-8') as f:
        for line in f:
            if line.strip() and not line.startswith('#'):
                crate, file, old, new, *behind = (line.rstrip('\n') + ' ').split(' ;; ')
                yield crate, file, old, new.strip(), ' '.join(behind).split()


def judge(repo, crate, file, old, new, behind):
    path = os.path.join(repo, 'crates', crate, file)
    with open(path, encoding='utf-8') as f:
        text = f.read()
    if text.count(old) != 1:
        return 'NOT PLANTED', f'the old text stands {text.count(old)} times'
    with open(path, 'w', encoding='utf-8') as f:
        f.write(text.replace(old, new))
    try:
        for checked in [crate, *behind]:
            done = subprocess.run(['rt', 'check'], cwd=os.path.join(repo, 'crates', checked), capture_output=True, text=True)
            if done.returncode != 0:
                break
    finally:
        with open(path, 'w', encoding='utf-8') as f:
            f.write(text)
    out = (done.stdout + done.stderr).replace(repo + '/', '')
    if done.returncode == 0:
        return 'STILL PROVED', ''
    if re.search(r'error: (a declaration is a signature|unexpected|expected (a|an|the) )|error\[', out) or not re.search(r'logic=not-proved|not proved|error: `', out):
        return 'NOT JUDGED', (out.strip().splitlines() or ['nothing was said'])[-1][:240]
    where = '' if checked == crate else checked + ': '
    why = [where + l for l in out.splitlines() if re.search(r'error|not proved that|`search` found|not proved', l)]
    return 'refused', (why or ['?'])[0][:240]


def main():
    source, workers = sys.argv[1], int(sys.argv[2]) if len(sys.argv) > 2 else 2
    name = sys.argv[3] if len(sys.argv) > 3 else 'bugs.txt'
    work, lock, results = list(enumerate(bugs(name))), threading.Lock(), {}

    def worker():
        with tempfile.TemporaryDirectory(dir=os.path.dirname(os.path.abspath(source))) as folder:
            repo = os.path.join(folder, 'repo')
            shutil.copytree(source, repo, ignore=shutil.ignore_patterns('out', '.git'))
            for crate in sorted({bug[0] for _, bug in list(work)}):
                if subprocess.run(['rt', 'check'], cwd=os.path.join(repo, 'crates', crate), capture_output=True).returncode != 0:
                    print(f'{crate} is not proved as it stands', flush=True)
                    return
            while True:
                with lock:
                    if not work:
                        return
                    i, bug = work.pop(0)
                results[i] = (bug, judge(repo, *bug))
                with lock:
                    (crate, file, old, new, _), (verdict, why) = results[i]
                    print(f'{verdict} | {crate}/{file} | {old} | {new or "(dropped)"} | {why}', flush=True)

    threads = [threading.Thread(target=worker) for _ in range(workers)]
    for t in threads:
        t.start()
    for t in threads:
        t.join()
    count = {}
    for _, (verdict, _) in results.values():
        count[verdict] = count.get(verdict, 0) + 1
    print(count)
    return 0 if count == {'refused': len(list(bugs(name)))} else 1


if __name__ == '__main__':
    sys.exit(main())
