#!/usr/bin/env python3
"""Writes Answers.antt for a straight line of calls on a bus, each bound by `let NAME = call(..)?;`.

usage: exits.py CRATE FUNCTION_PATH PHRASE_MODULE.phrase_name CLAUSE NAME..   (FUNCTION_PATH with dots, as fetch.next_number)
"""
import sys
crate, path, phrase, clause, names = sys.argv[1], sys.argv[2], sys.argv[3], sys.argv[4], sys.argv[5:]
module, phrase = phrase.rsplit(".", 1)
print(f"""use Rattle.std.proofs.lemmas.Result.{{err_from_is_err_and}}
use Rattle.m386_base.specs.Phrase.{{◌>>=◌}}
use Rattle.m386_base.proofs.Phrases.{{completes_then, completes_done, breaks_later, breaks_now}}
use Rattle.{crate}.specs.{module}.{{{phrase}}}
use Rattle.{crate}.proofs.{path}.Goals as goal""")
def chain(lemma, before, last):
    for name in reversed(before):
        last = f"({lemma} _ _ c.in_ok-{name}.ensures.{clause} {last})"
    return last
for i, name in enumerate(names):
    goal = f"returns-in_err-{name}-clause-{clause}"
    exit = "c.from_residual" + ("" if i == 0 else f"-in_err-{name}")
    print(f"""
pub {goal} : goal.{goal}
unfolding {phrase}
{goal} g c =
    let p = err_from_is_err_and {exit}.result {exit}.ensures.1 in
    rw (p.1, p.2) {chain("breaks_later", names[:i], f"(breaks_now _ _ c.in_err-{name}.ensures.{clause})")}""")
print(f"""
pub returns-clause-{clause} : goal.returns-clause-{clause}
unfolding {phrase}
returns-clause-{clause} g c = {chain("completes_then", names, "(completes_done _ _)")}""")
