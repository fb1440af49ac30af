#!/usr/bin/env python3
"""Writes crates/model/proofs/Everything.antt: one name whose unfolding opens every `unfoldable` definition of the model,
so that a worked example is proved by computation alone. Run it after an `unfoldable` was added, renamed or removed."""
import os
import re

CRATE = os.path.join(os.path.dirname(os.path.abspath(__file__)), '..', 'crates', 'model')
IEEE = ['add', 'sub', 'mul', 'div', 'of_int', 'of_bits', 'to_bits']
DEFINED = re.compile(r'^unfoldable pub (\S+) :|^unfoldable mutual\n(?:  --.*\n)*  pub (\S+) :', re.M)


def read(*path):
    with open(os.path.join(CRATE, *path), encoding='utf-8') as file:
        return file.read()


uses, names = [], list(IEEE)
for module in re.findall(r'^pub mod (\S+)', read('specs', 'Lib.antt'), re.M):
    found = [a or b for a, b in DEFINED.findall(read('specs', module + '.antt'))]
    if found:
        uses.append('use Rattle.model.specs.%s.{%s}' % (module, ', '.join(found)))
    names += found
twice = sorted({name for name in names if names.count(name) > 1})
if twice:
    raise SystemExit('defined in two modules: ' + ', '.join(twice))
text = '''-- Every definition of the model that does not unfold by itself, under one name: a proof that says `unfolding everything` computes.
-- Written by tools/everything.py. Assumes nothing.
use Prim.Native.Nat.{ℕ}
use lib.Ieee.{%s}
%s

unfoldable pub everything : ℕ
unfolding %s
everything = 0
''' % (', '.join(IEEE), '\n'.join(uses), ' '.join(names))
with open(os.path.join(CRATE, 'proofs', 'Everything.antt'), 'w', encoding='utf-8') as file:
    file.write(text)
