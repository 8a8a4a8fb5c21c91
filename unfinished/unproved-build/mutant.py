#!/usr/bin/env python3
"""mutant.py TREE CRATE EDIT OUT: copies TREE/crates, applies an edit, compiles the program of PROGRAM unproved to OUT."""
import sys, shutil, subprocess, os, re, time, glob, threading
tree, crate, edit, program, out = sys.argv[1:6]
work = f'$WT/prtry/mut-{os.path.basename(out)}'
shutil.rmtree(work, ignore_errors=True)
os.makedirs(work + '/scratch')
shutil.copytree(tree + '/crates', work + '/crates')
shutil.copy(tree + '/crates.txt', work)
if edit != '-':
    file = None; old = None
    for line in open(edit).read().split('\n'):
        if line.startswith('file: '): file = f'{work}/crates/{crate}/' + line[6:]
        elif line.startswith('old: '): old = line[5:]
        elif line.startswith('new: ') or line == 'new:':
            new = line[5:]
            s = open(file).read()
            assert s.count(old) == 1, (edit, old, s.count(old))
            open(file, 'w').write(s.replace(old, new))
keep = work + '/keep'
os.makedirs(keep)
stop = False
def watch():
    while not stop:
        subprocess.run(['cp', '-rln', work + '/scratch/.', keep], stderr=subprocess.DEVNULL)
        time.sleep(0.03)
t = threading.Thread(target=watch); t.start()
r = subprocess.run(['rt', 'try', program], cwd=work, env=dict(os.environ, TMPDIR=work + '/scratch'), capture_output=True, text=True)
stop = True; t.join()
objects = sorted(glob.glob(keep + '/*-2/module*.o*'))
if not objects:
    print('NO OBJECT', r.stdout[-2000:], r.stderr[-2000:]); sys.exit(1)
shutil.copy(objects[0], work + '/p.o')
own = '$KIT'
subprocess.run([own + '/bin/rattle-link', '--target', 'x86_64-unknown-linux-gnu', '--toolchain', own + '/toolchain', '-o', out, work + '/p.o'], check=True, capture_output=True)
shutil.rmtree(work)
