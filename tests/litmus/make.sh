#!/bin/sh
# make.sh: the files crates/vectors/stdin and crates/vectors/stdout from examples/litmus: each sheet after its length in two bytes, the most
# significant first; the expected lines in the same order. And crates/verdict/stdin, stdout from examples/first.sheet and 01-example.line.
# Lines that need other buffers than the program lends (12 and 13) are left out. With --check nothing is written: are the files as they should be?
set -eu
cd "$(dirname "$0")/../.."
exec python3 - "$@" <<'P'
import glob, sys
def read(name): return open(name, 'rb').read()
ins = outs = b''
for f in sorted(glob.glob('examples/litmus/*.sheet')):
    line = read(f[:-5] + 'line')
    if line.startswith((b'refused 12 ', b'refused 13 ')): continue
    s = read(f)
    ins += len(s).to_bytes(2, 'big') + s; outs += line
files = {'crates/vectors/stdin': ins, 'crates/vectors/stdout': outs, 'crates/verdict/stdin': read('examples/first.sheet'), 'crates/verdict/stdout': read('examples/litmus/01-example.line')}
bad = 0
for name, data in files.items():
    if read(name) == data: continue
    if sys.argv[1:] == ['--check']: bad = 1; print(name, 'is not what examples/litmus gives: run tests/make')
    else: open(name, 'wb').write(data); print(name, 'written', sep=': ')
sys.exit(bad)
P
