#!/usr/bin/env python3
"""docs/STATEMENTS.md has each theorem: its public contract, a short law in full, what its words mean, and where all definitions stand that it leads to.

    tests/statement.py [--write] [--pages FOLDER]

Compares the page with what the sources say; --write first makes it anew. With --pages FOLDER each theorem is also written there as a page that can be
read alone: the function's head with its contract, then each definition where it is first used, with its comment, then the types of the code that they
name; what lists of calls and scripts say of the larger commands stands on a page that both take by name. docs/STATEMENTS.md has the sum of each of
these pages, so a change of a statement shows in its difference. The last line counts the theorems.
"""
import argparse
import hashlib
import re
import shutil
import sys
import textwrap
from collections import Counter
from dataclasses import dataclass
from functools import lru_cache
from itertools import groupby
from pathlib import Path
from typing import Dict, FrozenSet, Iterator, List, Optional, Tuple

from counts import TOP, told, without
from definitions import CRATES, Definition, Module, Outside, RustType, Thing, file_of, named, resolve, uses
from quotes import WIDTH, broken, head_of

PAGE = TOP / 'docs' / 'STATEMENTS.md'
PROOFS = TOP / 'docs' / 'PROOFS.md'
LAWS = 'script_laws/src/lib.rt'
HANDLES = 'handles/src/lib.rt'
# What a law over bytes speaks of by its name alone: the page of a run has it.
BY_NAME = frozenset({'Rattle.script_running.specs.Outs.Outs', 'Rattle.undo_journal.specs.Journal.new_journal',
                     'Rattle.script_running.specs.Output.output_of', 'Rattle.script_running.specs.Output.summary_of'})
RUN_PAGE = 'run.md'
# The functions of laws over bytes whose words the others use.
FIRST = ('answers_stay', 'others_can_be_left_out')
# The chapters with which a reader may begin: they explain all their words.
ENTRIES = ('AnswersStay', 'OthersCanBeLeftOut', 'RepliesTell', 'BlocksMeasure')
# So does one that would name more other chapters.
FEW = 3
# When a larger command is refused, what it makes, and by which operators: the same for lists of calls and for scripts.
LARGER = ('shapes.specs.Lamina.lamina_conditions', 'shapes.specs.Lamina.lamina_model', 'shapes.specs.Block.block_conditions', 'shapes.specs.Block.block_model',
          'shapes.specs.Prism.prism_conditions', 'shapes.specs.Prism.prism_model', 'shapes.specs.glue.Glue.early_glue_conditions',
          'shapes.specs.glue.Glue.glue_conditions', 'shapes.specs.glue.Glue.glue_model', 'shapes.specs.split.Split.early_split_conditions',
          'shapes.specs.split.Split.split_conditions', 'shapes.specs.split.Split.split_model', 'sweeps_laws.specs.lamina.Path.lamina_operators',
          'sweeps_laws.specs.block.BlockOps.block_operators', 'sweeps_laws.specs.prism.SweepOps.sweep_ops', 'shapes.specs.glue.GlueOps.glue_ops',
          'split_laws.specs.SplitOps.split_ops')
SHARED = frozenset(f'Rattle.{name}' for name in LARGER)
SHARED_PAGE = 'larger_commands.md'
# What a call may be told, and what is whole: on the page of lists of calls, and taken by name where exports of a handle are such a list.
HEADLINE = frozenset({'Rattle.commands.specs.Telling.Tells', 'Rattle.commands.specs.Telling.IsWhole', 'Rattle.undo_journal.specs.Journal.new_journal'})
HEADLINE_PAGE = 'make_all.md'
# The definitions in which stands what a long theorem says: they are quoted too. docs/PROOFS.md quotes those of `make_all`.
KEY = {'make_all': ('IsWhole',),
       'run': ('Served', 'BreaksOff', 'IsTooLong', 'WriteFails', 'Moves', 'HandsOn', 'Outs', 'Judges', 'Answers', 'Obeys'),
       'HandlesBeginNew': ('HandleGoes', 'Opened', 'HandleHeeds', 'Heeds', 'Leaves'), 'HandlesStayWhole': ('IsWholeHandle', 'HandleGoesOn'),
       'HandlesMakeCalls': ('Each', 'StaysOpen', 'calls_in', 'AreAnswered'), 'ListedIsHeld': ('HandleJudgesText', 'JudgesText'),
       'BlocksAreConvex': ('IsStrictlyConvex', 'IsConvex', 'LiesBelow', 'BendsAway', 'IsBlock'), 'SplitsKeepStrictlyConvex': ('IsSplit',),
       'ConvexSplitsAreRefusedFor': ('MayRefuseConvexSplit',), 'BuiltAreConvex': ('IsBuilt',), 'RunsTell': ('TextAnswers', 'AsksForChange', 'AsksFor'),
       'UntouchedStay': ('touched', 'NoneTouches', 'StandsAs', 'alone'), 'UndosLeadBack': ('IsTakenBack',),
       'BlockLinesSpell': ('Spells',),
       'BlocksMeasure': ('AnswersAsBefore',), 'SweepsMeasure': ('VolumesGrow',),
       'GluesMeasure': ('VolumesJoin', 'ListsFace'), 'BlocksAndSplitsHaveVolume': ('OnlyBlocksAndSplits', 'IsBlockOrSplit'),
       'WrittenVolumesArePositive': ('VolumesArePositive',), 'RepliesTell': ('Fits',)}
# What the words of the statements that the page quotes mean: `NAME ARGUMENTS: text`, with the crate before a name that two crates have.
WORDS = TOP / 'tests' / 'statement_words.txt'
# The laws of marks, of the models that operators make, and of convex solids that have a chapter. They take by name what the page of lists of calls has.
FURTHER = (('call_lists/src/laws.rt', 'marks_lead_back'), ('untouched_solids/src/lib.rt', 'untouched_solids_stay'),
           ('call_lists/src/laws.rt', 'changes_leave_untouched_solids'), ('reached_models/src/lib.rt', 'sound_models_are_reached'),
           ('convex_laws/src/lib.rt', 'blocks_are_convex'), ('convex_laws/src/lib.rt', 'splits_keep_strictly_convex'),
           ('convex_laws/src/lib.rt', 'convex_splits_are_refused_for'), ('convex_laws/src/lib.rt', 'built_are_convex'))
# What the theorems from the first one of a file on are about.
GROUPS = {'call_lists/src/making.rt': 'Lists of calls, and runs of a script', HANDLES: 'The library for C',
          'call_lists/src/laws.rt': 'Drafts, and what changes leave alone', 'reached_models/src/lib.rt': 'Models and operators',
          'convex_laws/src/lib.rt': 'Convex solids', LAWS: 'Scripts and their replies'}
# What is said above the laws of scripts in the list of contents, and in the chapter of each that uses `EndsLine`.
SCRIPTS_SAY = """`answer_script`, `RunsTell`, `BrokenRunsTell`, `FailedRunsTell` and `WrittenVolumesArePositive` also hold of runs in which a reply is
`memory`. The laws whose names end with `Spell`, and the last three, speak of no run. All others speak of runs without `stop` in which no reply is `memory`."""
ENDED_SAYS = ' Here scripts are empty or end with a newline, and no reply is `memory`.'
SHARED_TITLE = 'Larger commands'
SHARED_TEXT = """\
`refusal_of`, `MayLack`, `made` and `operators_of` are made of these definitions, which the contracts of `make_all` and `run` take by name. They say when a
lamina, a block, a sweep, a glue and a split are refused, which of these conditions are tested before memory is asked for, what model each command makes, and
by which operators."""
SHARED_ANCHOR = '#larger-commands'
SHARED_SAYS = 'when a lamina, a block, a sweep, a glue and a split are refused, and what they make'
# So many lines has what the page quotes at most: a law, or a law with all that it rests on.
SHORT = 12
# What the standard library says of bytes that are read and written, and the words of it that contracts of runs use.
KNOWN_BYTES = 'rattle/std/specs/Io/KnownBytes.antt'
BYTES = ('Appends', 'Consumes', 'IsAtEnd')
# A chapter refers to an earlier one that lists so many of its definitions at least, and so many others at most.
FEWEST, OTHERS = 5, 8
# The files of so many are named in the paragraph, those of more in a list.
IN_LINE = 3
# A longer list of definitions only says how many there are in each crate.
MANY = 40
TYPES_TITLE = 'Types declared in code'
TYPES_ANCHOR = '#types-declared-in-code'
TYPES_SAYS = 'where the types stand that definitions use'
HEAD = """# Statements

This page is for readers who want to check for themselves *what* is proved of gwb. A machine checked the proofs, so you needn't read them: you trust the
prover, and read the theorems and the definitions of their words. Begin with [PROOFS.md](PROOFS.md), which says in plain words what the theorems promise, and
explains [the signs](PROOFS.md#how-to-read-a-statement). In both pages `f x y` is the value of the function f for x and y, `P → Q` says "if P, then Q", and
`(x : T) → Q` says "Q, for every x of the type T".

A *law* is a theorem with a name. This page has a chapter for each of

- the two largest theorems, `make_all` and `run`, which say what gwb does
- all laws of handles and of the bytes of scripts
- some laws of drafts, models and solids. PROOFS names more, which have no chapter here: `grep -rw NAME crates/*/specs` finds each.

One limit first: the theorems about scripts speak of bytes in memory. If a run reads a file or a pipe, or writes to one, *nothing* is proved of
its bytes ([run](#run)). PROOFS says [what else is not proved](PROOFS.md#what-is-not-proved).

If you have one hour, read

1. [How to read a chapter](#how-to-read-a-chapter)
2. three short chapters: [AnswersStay](#answersstay), [OthersCanBeLeftOut](#otherscanbeleftout) and [RepliesTell](#repliestell)
3. in PROOFS the definitions of [make_all](PROOFS.md#the-main-theorem) and of [Sound](PROOFS.md#sound-models)
4. the definitions in [run](#run), and a law whose subject you know, such as [BlocksMeasure](#blocksmeasure).

The page is made from the sources by `tests/statement.py --write`: edit nothing here.

## The theorems
"""
BELOW = """## How to read a chapter

A chapter is about one theorem. Take [AnswersStay](#answersstay), and read the first line of its definitions aloud: for every `script` and every text `more`, if
the script is empty or ends with a newline (`EndsLine`), then there is a `reply` such that the lines of `more`, added to the script, add exactly this reply to
what is answered (`Adds`). The lines below it define these words, and a comment above each (`--`) says the same in English.

A chapter has, in this order:

1. *In words*: what the theorem says.
2. *The contract*: the head of a function, and what is proved of it (`ensures`). Most contracts only name a law; then a link to the function stands there.
3. *Definitions*: that of the law, and of the words in it that say most. If all definitions that it uses have at most 12 lines together, all of them stand
   there. What an earlier chapter quotes isn't quoted again. A comment that begins with a name, its arguments and a colon is this page's; any other is the
   source's.
4. *Other names* in these definitions, each with its arguments and what it means. This list helps you to read; it isn't a part of the theorem. A name that
   *To read* doesn't list has a link to its file. If at most three earlier chapters of the same group explain a name, it isn't explained again: the last item
   names these chapters.
5. *To read*: how many definitions there are to read for this theorem, if you want to see for yourself what each word means, and how many lines they have.
   Then come their names, below the files in which they stand, in the order in which they are first used. If there are more than 40, you find only how many
   each crate has. If an earlier chapter lists or counts most of them already, only the others are named.
6. *Not followed further*: definitions that the theorem uses, but that *To read* doesn't count, and neither what they use in their turn.
7. *Types*: the types of the program that the definitions use. The last chapter says where each is declared.
8. *Sum*: twelve hexadecimal digits, to compare two versions of gwb. If a theorem has the same sum in both, nothing of what there is to read for it has
   changed, not even a comment. If the sums of the chapters to which *Not followed further* leads are the same too, you needn't read again what you read once.

This command writes for each theorem a page that can be read alone, with everything in *To read* in full. *Sum* is the beginning of the SHA-256 checksum of
that page:

    tests/statement.py --pages FOLDER

What isn't followed further is counted, and covered by the sum, in another chapter:

- in `make_all` and `run` the larger commands: in [a chapter of their own](#larger-commands)
- in the laws of handles `Tells` and `IsWhole`: in [make_all](#make_all); `new_journal`: in [run](#run)
- in the laws of drafts, of what changes leave alone, of models and of convex solids all that [make_all](#make_all) counts, and the larger commands
- in the laws of scripts `output_of`, by which `answers` is defined, `Outs`, `summary_of` and `new_journal`: in [run](#run)

Of the names that no chapter explains, [MODEL](MODEL.md#operators) has the operators, such as `Mvfs`, and [REFUSALS](REFUSALS.md) the reasons, such as
`NoSolid`. Others, such as `map`, are those of the prover's library, which you trust with the prover: `rt lemma NAME` shows their definitions.

A few signs more:

- `IfOk r (λ x. P)` says P of the value x, if r is Ok.
- An argument in braces, as `{R}`, is left out where the definition is used.
- `codes "ok"` are the bytes of this text. A backslash at the end of a line in it means that it goes on in the next line, behind the blanks.
- `told.Steps` is the case `Steps` of the type `Told`, while `told` alone is a list of answers.
- `R.asks` of a run has nothing to do with the `asks` of handles, nor `answers` with `Answers`.
"""
# What the chapter of a run says of the bytes that it reads and writes, before what the standard library says of them.
BYTES_SAY = """A run takes its bytes from a reader and gives them to a writer. If these are lists of bytes in memory (`Some xs`), the theorem says exactly which
bytes were read and written. If they are files or pipes (`None`), the contract doesn't see their bytes: then the three words below hold always (`⊤`), as does
`Reaches` of such a writer, and so nothing is promised about the bytes. `Appends before after bytes`: these bytes were written after those before.
`Consumes before after bytes`: they were read, and those after are left. `IsAtEnd left`: nothing is left to read."""
# What a theorem says, where the documentation in the code speaks of several at once, or says it only in part.
SAYS = {
    'make_all': '''Each call gets an answer, and answers and sessions are those that `Tells` allows: a change, an undo or a redo is done and has exactly its
effect, or is refused by its first false condition, or (only a change) is answered `Memory`; in both other cases nothing changes.

| Call | How it is answered | What changes if it is `Done` |
|---|---|---|
| a change | `Done`, `Refused` or `Memory` | the model, by its effect; a draft gets its steps |
| undo, redo | `Done` or `Refused`; in a draft `InDraft` | the model, by its effect |
| a question | by its value, or `Refused` | nothing, however it is answered |
| `Open` | `Done` or `Memory`; in a draft `InDraft` | a draft begins |
| `Mark` | in a draft by the number of its steps, else `NoDraft` | nothing, however it is answered |
| `Back n` | in a draft `Done`, else `NoDraft` | the draft is led back to its first n steps |
| `Commit` | in a draft `Done`, else `NoDraft` | the steps become one change of the session |
| `Abandon` | in a draft `Done`, else `NoDraft` | the session is as it was before the draft |

What is answered otherwise changes nothing. A change is answered `Memory` only where all conditions hold; of a glue or a split only those need to hold that
are tested before memory is asked for (`MayLack`). If the result is an error (an `AllocError`), since there is no memory for the answers, nothing has changed
at all. What the list ends with is whole (`IsWhole`): each model of its session is sound, and accepted operators make it from the one before; the model of a
draft is sound too, and accepted operators make it from the session's.

In the contract `calls.entry` is the list of calls as it was given, `told.old` and `told.new` are the answers before and after, `items` the items of a list,
and `result.0` and `result.1` the two parts of what the function returns. [PROOFS](PROOFS.md#the-main-theorem)
quotes the definitions that are the core of the theorem, such as `Tells`, and explains their words. Most of the others say when a model is sound (`Sound`), and
what each operator does: `conditions`, when it is refused; `effect`, the model that it makes; `inverse`, the operator that takes it back.''',
    'run': '''If a run ends well (`Served`), each line has got its answer in turn, or with `stop` (the flag `--stop`) each up to the first complaint, a reply
that begins with `refused`, `fault` or `memory`. `Outs` says which answers: those that are possible for the session to which the lines before have led. A line
that spells a command is answered as `Tells` of [make_all](#make_all) allows (the law `LinesAreTold` of [PROOFS](PROOFS.md#runs-of-a-script) says so), a
faulty line by its fault, `list` by the listing, a comment by nothing. After a failed read, or if the script is too long
(`BreaksOff`), the lines that came with their newlines have got their answers; after a failed write (`WriteFails`), a prefix of the answers was written; if
the run is answered `Memory`, nothing was read or written. Unless a write failed or the run is answered `Memory`, all was handed on (`HandsOn`).

In the contract R and W are the types of the reader and the writer: `R.remaining` are the bytes still to be read, `W.contents` those that were written,
`W.reached` those of them that were handed on, and `R.asks` is what this reader requires of the contents before it is read. `requires asked` says that it may
require no more than this: all whole lines given so far are answered. In the definition of `AsksAnswers`, `now` is the reader after some reads, `given` what
it has given, `out` what the run has written, and `contents` all that the writer then has. [Inlet and Outlet](../crates/script_reader/src/streams.rt) declare
these words; `Write`, in the prover's library, declares `contents`. `read_after` requires that all that was written was handed on.

`Moves` says which bytes were read (`given`), which are left, and which were written (`out`). `more` are bytes that the reader might have given after those;
if it has come to its end, there are none. Whatever they are, in `Served` the text `out` answers the lines of `within_limit 0 given ++ more`, or with `stop`
those up to the first complaint; in `WriteFails` `out ++ rest` does. `Moves` calls `writer` what the others call `new`: what was written in the end. The
field `output` says: if no reply is `memory`, `out` and the counts are exactly those that `output_of` and `summary_of` compute.''',
    'answer_script': '''A run without `stop` that ends well answers each line in turn, and where no reply is `memory`, it writes `answers` of what it read.
Of the bytes of files and pipes that says nothing, as [run](#run) explains.''',
    'HandlesStayWhole': '''After any list of exports, from a whole handle on, what the handle holds is whole. A handle is whole if it is closed or what it
holds is: its machine is consistent, so its first model is empty, each model is sound, and each next one is made by accepted operators; and the model of a
draft is sound too, and made by the draft's steps.''',
    'HandlesMakeCalls': '''While no export closes an open handle, it stays open, and what it holds is what the calls that the exports ask for make of what it
held before (`MakesAll`). So all laws of lists of calls hold of it. `AreAnswered` says which kinds C is told, and what the last answer is.''',
    'HandlesAreTakenBack': '''If a handle holds a session before and after exports that don't close it, the calls that these make are neither undo nor redo,
and n more commands can be undone after them than before, then n undos are told 1 (accepted) each, and the model is the one before these calls.''',
    'ReadersLeaveHandles': '''If what is lent to an export that only looks is the same after it as before, the case `reads` of `HandleGoes` holds of the
handle. That it is the same, the contract of each such export says; this law only carries it over.''',
    'ListedIsHeld': '''If what a handle holds is whole, and an export (`gwb_lent_is_listing`) tells 1 of a text, that it is the listing of that, then the
model held is the only sound one with this listing.''',
    'StepsAreMarks': 'In a draft that is whole, `Mark` may be answered the number of its steps, and changes nothing.',
    'MarksLeadBack': 'After calls that neither end the draft nor go back before a mark, going back to the mark is done, and gives the draft as it was there.',
    'ChangesLeaveUntouched': '''A change of a whole session or draft, whatever it is told, leaves each solid that none of its operators touches as it stood.
Of a change that is done `Tells` says that exactly these operators are recorded: a session has one more record, of all of them (`LeavesRecord`); a draft has
them as further steps (`TakesSteps`, in [Telling](../crates/commands/specs/Telling.antt)). So whatever a program builds of changes leaves alone what their
operators don't touch.''',
    'UntouchedStay': '''After operators, each accepted in its turn, from a sound model on, a solid that none of them touches stands as it stood: `alone` has
its faces, loops, edges and vertices with all that they hold, and no others; `six_volume` stays too. An operator touches the solids that it names, and those
of the faces, loops, corners and half-edges that it names: of an accepted operator all these lie in one solid, so `touched` names it once.''',
    'SoundIsReached': 'A model is sound exactly if operators, each accepted in its turn, make it from the empty one.',
    'SoundIsLinked': 'Operators, each accepted in its turn, lead from each sound model to every other.',
    'BuildersSuffice': 'Six [operators](MODEL.md#operators) are enough to make each sound model from the empty one.',
    'BlocksAreConvex': '''A new block in a sound model is strictly convex: each face is flat, no vertex of the solid lies above the plane of one of its faces,
and at each edge the two faces bend away from each other. That is, each half-edge makes an angle below 90 degrees with the cross product of two normals, that
of its own face and that of its mate.''',
    'SplitsKeepStrictlyConvex': 'After a split of a strictly convex solid of a sound model, along whatever plane, both parts are strictly convex.',
    'PartsOfConvexSolidsHaveVolume': 'After a split of a strictly convex solid of a sound model, both parts have a `six_volume` above 0.',
    'ConvexSplitsAreRefusedFor': '''A split of a strictly convex solid of a sound model is refused for one of ten reasons only. [REFUSALS](REFUSALS.md)
explains each. Three of them, `LoneLoop`, `CutCrossed` and `BranchedVertex`, no one would expect of a convex solid. They stand here since strict convexity
looks at faces and edges one by one: it also holds of a solid whose faces go round the same body twice, and of one whose face has a vertex without edges.''',
    'BuiltAreConvex': '''Whatever accepted blocks, splits, undos and redos make from the empty model on, in any order and number, has only strictly convex
solids.''',
    'BuiltHaveVolume': 'Each solid that accepted blocks, splits, undos and redos make from the empty model on has a `six_volume` above 0.',
    'AnsweredSo': 'An example, computed: what is written, if no reply is `memory`, for a script of eight lines, of which one is refused and two are `undo`.',
    'AnswersStay': '''What was answered stays, whatever comes after it. `answers` of a script is what a run without `stop` writes for it if no reply is `memory`
([RunsAnswer](#runsanswer)). `output_of`, a function of the lines, computes it; [run](#run) counts its definitions.''',
    'BlockLinesSpell': '''A line of the word `block`, a number less than 2 ^ 32 and six of absolute values less than 2 ^ 63, in decimal digits, after a `-`
where they are negative, with one blank between words, spells this block.''',
    'SplitLinesSpell': '''A line of the word `split`, a number less than 2 ^ 32, four of absolute values less than 2 ^ 63 and another one less than 2 ^ 32, in
decimal digits, after a `-` where they are negative, with one blank between words, spells this split.''',
    'VolumeLinesSpell': "A line of the word `volume` and a number less than 2 ^ 32 in decimal digits spells the question for this solid's volume.",
    'RunsTell': '''Even if memory is refused, a run without `stop` that ends well writes the answers to its lines; a line that is answered `memory` changes
nothing.''',
    'UndosLeadBack': '''If a script has no undo and no redo, as many undos as it has replies `ok` lead back to the start. All of them are answered `ok`,
`list` is then answered `empty`, and whatever follows, except redo, is answered as if it were the whole script.''',
    'SomeUndosLeadBack': 'For each script, some number of undos, which are all answered `ok`, leads to the empty model.',
    'SweepsMeasure': '''After a sweep by d that was answered `ok`, the answer to `volume` has grown for one solid by three times the dot product of d and the
first three numbers that `plane` answers for the face before the sweep. Every other volume is answered as before. The theorem says that there is such a
solid, but not that it is the one to which the face belongs.''',
    'GluesMeasure': '''After a glue that was answered `ok`, the volume of the first face's solid is the sum of both volumes before, the second face's solid
is gone, and every other volume is answered as before. To which solids the faces belong is read in the listing before the glue.''',
    'WrittenVolumesArePositive': '''Even if memory is refused, a text that answers all lines of a script whose only changes are blocks and splits, or the
first ones, has only volumes above 0.''',
    'RepliesTell': '''Of replies of one line whose numbers fit (`Fits`), none is the beginning of another one, so a text of such replies alone, without
listings, can be cut into them in only one way. [Told](../crates/solid_listing/src/told.rt) has its numbers as `u32`, `i128` and `i64`: all of these fit but
the least `i128` and the least `i64`. That no run answers these two is not part of the law.''',
    'RefusalsTell': 'The number of a refusal tells why the command was refused.',
    'FaultsTell': 'The number of a fault tells what is wrong with the line.',
    'HandlesBeginNew': '''A handle that was opened holds a new session, which has answered nothing.

A *handle* is what a program in C has of gwb: it is closed, or it holds a session or a draft. An *export* is a function of the library that C calls with a
handle; a *reader* is here an export that only looks, and not what [run](#run) reads from. The contract of each export gives its case of `HandleGoes`: in the
words of [Calls](../crates/gwb_c/specs/Calls.antt) where it asks for something, by [ReadersLeaveHandles](#readersleavehandles) where it only looks.
[PROOFS](PROOFS.md#the-library-for-c) says more, and follows a call.

An export tells C a number, the *kind* of its answer (`kind`). `gwb_open` tells 1 or 0: the handle was opened, or it wasn't. `gwb_close` tells nothing;
what only looks tells numbers of its own, of which `HandleGoes` says nothing. The kinds of all others:

| 0 | 1 | 2 | 3 | 4 | 5 | 6 | 7 | 8 | 9 | 10 | 11 | 12 |
|---|---|---|---|---|---|---|---|---|---|---|---|---|
| nothing | `ok` | `refused` | `fault` | `memory` | `plane` | `volume` | `count` | a listing | closed handle | no call | not in a draft | only in drafts |''',
    'RunsAnswer': 'If a run without `stop` ends well, and no reply is `memory`, it writes the answers to the bytes that it was given.',
    'BrokenRunsTell': '''After a failed read, or if the script is too long, a run without `stop` has written the answers to the lines that came with their
newlines.''',
    'FailedRunsTell': 'After a failed write a run without `stop` has written a prefix of the answers.',
    'BlocksMeasure': '''After a block that was answered `ok`, `volume` of its solid is answered 6 dx dy dz, six times the product of its sizes; every other
volume is answered as before. By a volume these laws mean the answer to `volume`: a whole number, a sum over the faces of the solid (`six_volume`). That it is
six times the volume of the space that a solid encloses isn't proved, only tested.''',
    'PartsShareVolumes': '''If the volume of a solid is answered a number, then after a split of it that was answered `ok`, the sum of the answers for both
parts is this number; every other volume is answered as before.''',
    'BlocksAndSplitsHaveVolume': '''After a script whose only changes are blocks and splits, a question for a volume is answered a number greater than 0, or
it is refused. The script may have undo, redo, questions, comments and faults too.''',
}


@dataclass(frozen=True)
class Theorem:
    """A public function, whose contract is the theorem, or one clause of it, where that is a law; and what its page takes by name."""

    file: str
    function: str
    law: str = ''
    by_name: FrozenSet[str] = frozenset()

    @property
    def title(self) -> str:
        """The path by which code names it, and the law."""
        return f'{self.file.split("/")[0]}::{self.function}' + (f': {self.law}' if self.law else '')

    @property
    def name(self) -> str:
        """The law, or the function where that is no law."""
        return self.law or self.function

    @property
    def page(self) -> str:
        """The name of its page."""
        return f'{re.sub(r"(?<=[a-z])(?=[A-Z])", "_", self.law).lower() or self.function}.md'

    def head(self, lines: List[str]) -> List[str]:
        """The function's head with the contract, of which only the law's clause is told where there is one."""
        return [line for line in head_of(lines, self.function) if not self.law or 'ensures' not in line or f'{{ {self.law} }}' in line]


def laws_in(file: str, function: str, by_name: FrozenSet[str]) -> Iterator[Theorem]:
    """The laws of a function, each by its clause; a function without laws as it is."""
    laws = re.findall(r'ensures (?:\w+ )?\{ ([A-Z]\w+) \}', '\n'.join(head_of((CRATES / file).read_text().splitlines(), function)))
    yield from (Theorem(file, function, law, by_name) for law in laws or [''])


def laws_of(file: str, by_name: FrozenSet[str]) -> Iterator[Theorem]:
    """The laws of the functions of a file."""
    for function in sorted(re.findall(r'^pub fn (\w+)', (CRATES / file).read_text(), re.MULTILINE), key=lambda name: name not in FIRST):
        yield from laws_in(file, function, by_name)


@lru_cache(maxsize=None)
def known() -> FrozenSet[str]:
    """What the page of lists of calls has, or takes by name."""
    things = things_of(Theorem('call_lists/src/making.rt', 'make_all', by_name=SHARED))
    return frozenset(f'{thing.module}.{thing.name}' for thing in things if isinstance(thing, Definition))


def theorems() -> List[Theorem]:
    """A list of calls, a script's run, each law of a handle, those of marks, models and convex solids, and each law over bytes."""
    return [Theorem('call_lists/src/making.rt', 'make_all', by_name=SHARED), Theorem('script_running/src/running.rt', 'run', by_name=SHARED),
            *laws_of(HANDLES, HEADLINE), *(law for file, function in FURTHER for law in laws_in(file, function, known())), *laws_of(LAWS, BY_NAME)]


def doc_above(lines: List[str], at: int) -> List[str]:
    """The documentation above a line of code."""
    while at and lines[at - 1].strip().startswith('#['):
        at -= 1
    first = at
    while first and lines[first - 1].strip().startswith('///'):
        first -= 1
    return [line.strip() for line in lines[first:at]]


def scope_of(lines: List[str]) -> Module:
    """What the names of definitions stand for in code."""
    scope = Module('')
    for line in lines:
        if line.strip().startswith('ghost use '):
            scope.take_import(line.strip()[len('ghost '):].rstrip(';'))
    return scope


def source_of(crate: str, pattern: str) -> Optional[Tuple[Path, List[str], int]]:
    """The first source of a crate in which a line has this pattern, its lines, and the place of that one."""
    for path in sorted((CRATES / crate / 'src').rglob('*.rt')):
        lines = path.read_text().splitlines()
        for at, line in enumerate(lines):
            if re.match(pattern, line):
                return path, lines, at
    return None


def home(kind: RustType) -> Optional[RustType]:
    """The type under the name of the crate that declares it; None where it is none of the project's."""
    if source_of(kind.crate, rf'\s*pub (?:enum|struct) {kind.name}\b'):
        return kind
    text = '\n'.join(path.read_text() for path in sorted((CRATES / kind.crate / 'src').rglob('*.rt')))
    passed = re.search(rf'^pub use (\w+)::[^;]*\b{kind.name}\b', text, re.MULTILINE)
    return home(RustType(passed.group(1), kind.name)) if passed and (CRATES / passed.group(1)).is_dir() else None


def declaration(kind: RustType) -> List[str]:
    """The declaration of a type in the crate that declares it, with its documentation, without attributes and private fields."""
    found = source_of(kind.crate, rf'\s*pub (?:enum|struct) {kind.name}\b')
    assert found
    _, lines, at = found
    ends = next((to for to in range(at, len(lines)) if lines[to] == '}'), at) if lines[at].endswith('{') else at
    hidden = re.compile(r'\s*#\[' if 'enum' in lines[at] else r'\s*(?:#\[|pub\(crate\)|\w+: )')
    return [*doc_above(lines, at), lines[at], *(line for line in lines[at + 1:ends + 1] if not hidden.match(line))]


def crate_of(lines: List[str], crate: str, name: str) -> str:
    """The crate from which a file of code has a name."""
    found = re.search(rf'^use (\w+)::[^;]*\b{name}\b', '\n'.join(lines), re.MULTILINE)
    return found.group(1) if found and (CRATES / found.group(1)).is_dir() else crate


def model_of(kind: RustType) -> List[Thing]:
    """The definition that stands for a type of the code in contracts, where it has one of its own."""
    found = source_of(kind.crate, rf'impl Model for {kind.name}\b')
    if not found:
        return []
    _, lines, at = found
    block = lines[at:lines.index('}', at)]
    value = re.search(r'ghost Value = \{ (\w+) \}', '\n'.join(block))
    thing = named(scope_of(block), value.group(1)) if value else None
    return [thing] if thing else []


def begun(theorem: Theorem, lines: List[str], head: List[str]) -> List[Thing]:
    """What the words of the contract stand for, in their order."""
    scope, crate = scope_of(lines), theorem.file.split('/')[0]
    found: List[Thing] = []
    for word in re.findall(r'[^\s(){}\[\],;&<>]+', '\n'.join(head)):
        thing = named(scope, word)
        kind = home(RustType(crate_of(lines, crate, word), word)) if thing is None and re.fullmatch(r'[A-Z]\w+', word) else None
        found += [thing] if thing else [kind, *model_of(kind)] if kind else []
    return list(dict.fromkeys(found))


def led_to(first: List[Thing], by_name: FrozenSet[str]) -> List[Thing]:
    """All that these lead to, each where it is first used."""
    found = dict.fromkeys(first)
    for thing in (waiting := list(first)):
        if isinstance(thing, Definition) and f'{thing.module}.{thing.name}' not in by_name:
            new = [it for it in uses(thing) if it not in found]
            found.update(dict.fromkeys(new))
            waiting += new
    return list(found)


def shown(definition: Definition, by_name: FrozenSet[str]) -> List[str]:
    """The lines of a definition on a page."""
    lines = [*definition.comment, *definition.lines]
    name = f'{definition.module}.{definition.name}'
    if name in by_name:
        page = SHARED_PAGE if name in SHARED else RUN_PAGE if name in BY_NAME else HEADLINE_PAGE
        lines = [*definition.comment, definition.lines[0].split(' where')[0], f'-- (by its name: it stands on {page})']
    return lines


def source(definition: Definition) -> str:
    """The file of a definition, and the parameters of the block in which it stands there."""
    crate, _, *path = definition.module.split('.')[1:]
    return f'-- {crate}/specs/{"/".join(path)}.antt' + (f', {definition.block}' if definition.block else '')


def code(kind: str, lines: List[str]) -> List[str]:
    """A block of code."""
    return ['', f'```{kind}', *lines, '```'] if lines else []


def outside(things: List[Thing]) -> List[str]:
    """The words that no crate of the project defines."""
    words: Dict[str, List[str]] = {}
    for thing in things:
        if isinstance(thing, Outside):
            words.setdefault(thing.module.replace('Rattle.', '').replace('.specs', ''), []).append(thing.name)
    listed = '; '.join(f'{module}: {" ".join(f"`{name}`" for name in sorted(names))}' for module, names in sorted(words.items()))
    return ['', *textwrap.wrap(f'Words of the standard library: {listed}.', WIDTH, break_on_hyphens=False)] if words else []


def definitions_of(things: List[Thing], by_name: FrozenSet[str]) -> List[str]:
    """The definitions, those of one file that follow each other under its name."""
    found: List[str] = []
    for file, group in groupby((thing for thing in things if isinstance(thing, Definition)), source):
        found += ['', file]
        for definition in group:
            found += ['', *shown(definition, by_name)]
    return found[1:]


def types_of(things: List[Thing]) -> List[RustType]:
    """The types of the code among them that the project declares, and those that these have, each once."""
    found = dict.fromkeys(filter(None, (home(thing) for thing in things if isinstance(thing, RustType))))
    for kind in (waiting := list(found)):
        words = re.findall(r'[(,:&<] ?([A-Z]\w+)', '\n'.join(line for line in declaration(kind) if '///' not in line))
        new = [it for it in (home(RustType(kind.crate, word)) for word in words) if it and it not in found]
        found.update(dict.fromkeys(new))
        waiting += new
    return list(found)


@lru_cache(maxsize=None)
def things_of(theorem: Theorem) -> List[Thing]:
    """All that the page of a theorem has."""
    lines = (CRATES / theorem.file).read_text().splitlines()
    return led_to(begun(theorem, lines, theorem.head(lines)), theorem.by_name)


@lru_cache(maxsize=None)
def below(theorem: Theorem) -> FrozenSet[Definition]:
    """The definitions that a theorem leads to, but its law."""
    things = things_of(theorem)
    return frozenset(it for it in things if isinstance(it, Definition) and not is_by_name(it, theorem.by_name) and it.name != theorem.law)


@lru_cache(maxsize=None)
def groups() -> Dict[str, str]:
    """What each theorem is about."""
    found: Dict[str, str] = {}
    title = ''
    for theorem in theorems():
        title = GROUPS.get(theorem.file, title)
        found[theorem.name] = title
    return found


@lru_cache(maxsize=None)
def listed_before() -> Dict[str, Theorem]:
    """Of each theorem that leads to nearly all of what an earlier one does, the one that lists most of it in full."""
    found: Dict[str, Theorem] = {}
    full: List[Theorem] = []
    for theorem in theorems():
        both = {it: len(below(it) & below(theorem)) for it in full}
        earlier = [it for it, count in both.items() if count >= FEWEST and len(below(it)) - count <= min(OTHERS, count // 4)]
        if earlier:
            found[theorem.name] = max(earlier, key=lambda it: both[it])
        else:
            full.append(theorem)
    return found


@lru_cache(maxsize=None)
def shared_things() -> List[Thing]:
    """What the larger commands lead to, without what both theorems that take them by name have."""
    first = [resolve(base, name) for base, _, name in (f'Rattle.{path}'.rpartition('.') for path in LARGER)]
    known = set.intersection(*(set(things_of(theorem)) for theorem in theorems() if theorem.by_name is SHARED)) - set(first)
    return [thing for thing in led_to(first, frozenset()) if thing not in known]


def shared_page() -> str:
    """The page of the larger commands."""
    things = shared_things()
    return '\n'.join([f'# {SHARED_TITLE}', '', SHARED_TEXT, *code('antt', definitions_of(things, frozenset())), *outside(things)]) + '\n'


def page_of(theorem: Theorem) -> str:
    """The page of a theorem."""
    lines = (CRATES / theorem.file).read_text().splitlines()
    at = next(at for at, line in enumerate(lines) if re.match(rf'pub fn {theorem.function}\b', line))
    head = theorem.head(lines)
    things = things_of(theorem)
    types = [line for kind in types_of(things) for line in ['', *declaration(kind)]]
    text = [f'# {theorem.title}', '', *(line[len('/// '):] for line in doc_above(lines, at)), *code('rust', head),
            *code('antt', definitions_of(things, theorem.by_name)), *code('rust', types[1:]), *outside(things)]
    return '\n'.join(text) + '\n'


def wrapped(text: str) -> List[str]:
    """A paragraph, or a table as it is, below an empty line."""
    return ['', *text.splitlines()] if text.startswith('|') else ['', *textwrap.wrap(text, WIDTH, break_on_hyphens=False, break_long_words=False)]


def is_by_name(thing: Thing, by_name: FrozenSet[str]) -> bool:
    """Whether a statement takes this by its name."""
    return isinstance(thing, Definition) and f'{thing.module}.{thing.name}' in by_name


def places(definitions: List[Definition]) -> List[str]:
    """The definitions by the files that they stand in, each file where the first of them is used; of many only how many each crate has."""
    found: Dict[Path, List[str]] = {}
    for definition in definitions:
        found.setdefault(file_of(definition.module).relative_to(CRATES), []).append(definition.name)
    if len(definitions) <= MANY:
        return [line for file, names in found.items() for line in bullet(f'[{file}](../crates/{file}): {", ".join(f"`{name}`" for name in names)}')]
    counted = Counter(it.module.split('.')[1] for it in definitions)
    crates = ', '.join(f'{crate} {count}' for crate, count in sorted(counted.items()))
    return textwrap.wrap(f'By crates, each in its `specs/`: {crates}.', WIDTH, break_on_hyphens=False, break_long_words=False)


def bullet(text: str) -> List[str]:
    """An item of a list."""
    return textwrap.wrap(f'- {text}', WIDTH, subsequent_indent='  ', break_on_hyphens=False, break_long_words=False)


def link(theorem: Theorem) -> str:
    """A link to the chapter of a theorem."""
    return f'[{theorem.name}](#{theorem.name.lower()})'


def several(count: int, what: str) -> str:
    """So many of something."""
    return f'{count} {what}{"" if count == 1 else "s"}'


def listed_in(earlier: Theorem, definitions: List[Definition]) -> str:
    """How many of these an earlier chapter lists, and what it lists besides."""
    others = [f'`{it.name}`' for it in things_of(earlier) if it in below(earlier) - frozenset(definitions)]
    count = len(below(earlier)) - len(others)
    verb = 'counts' if len(below(earlier)) >= MANY else 'lists'
    return f', of which {link(earlier)} {verb} {count}' + (f' (all there but {", ".join(others)})' if others else '')


def also_in(theorem: Theorem) -> str:
    """How many of the definitions of a long chapter the one before has that has most, if it has half of them."""
    before = theorems()[:theorems().index(theorem)]
    count, at = max(((len(below(it) & below(theorem)), -at) for at, it in enumerate(before)), default=(0, 0))
    return f', {count} of them also in {link(before[-at])}' if len(below(theorem)) > MANY and count * 2 >= len(below(theorem)) else ''


def links(things: List[Thing], by_name: FrozenSet[str], page: str, earlier: Optional[Theorem] = None, also: str = '') -> List[str]:
    """What there is to read among these: the definitions by their files, without those of an earlier chapter, the types, and the sum of the page that has all.
    Those of larger commands are named once."""
    definitions = [thing for thing in things if isinstance(thing, Definition) and not is_by_name(thing, by_name)]
    names = [f'`{thing.name}`' for thing in things if is_by_name(thing, by_name)]
    kinds, there = types_of(things), types_of(things_of(earlier)) if earlier else []
    less = [f'`{kind.name}`' for kind in there if kind not in kinds]
    is_more = len(there) > len(less) * OTHERS
    same = 'those there' + (f' but {", ".join(less)}' if less else '')
    types = [same] * is_more + [f'`{kind.name}`' for kind in kinds if not (is_more and kind in there)]
    count = sum(bool(line.strip()) and not line.strip().startswith('--') for it in definitions for line in it.lines)
    shared = f'[{SHARED_TITLE}]({SHARED_ANCHOR})'
    in_all = len({*definitions, *(it for it in shared_things() if isinstance(it, Definition))})
    by_names = {SHARED: f'the {len(names)} of {shared}; with all that these lead to, there are {in_all} definitions', BY_NAME: f'{", ".join(names)} of [run](#run)',
                known(): f'{several(len(names), "definition")} of [make_all](#make_all) and {shared}'}
    where = listed_in(earlier, definitions) if earlier else also
    found = [f'To read: {several(len(definitions), "definition")}, {several(count, "line")}{where}.' if definitions else '',
             f'Not followed further: {by_names.get(by_name, ", ".join(names))}.' if names else '',
             f'[Types]({TYPES_ANCHOR}): {", ".join(types)}.' if types else '', f'Sum `{hashlib.sha256(page.encode()).hexdigest()[:12]}`.']
    here = [it for it in definitions if not (earlier and it in below(earlier))]
    if here and len({it.module for it in here}) <= IN_LINE and len(here) <= MANY:
        found.insert(1, f'In {re.sub(" +- ", "; in ", " ".join(places(here))[2:])}.')
        here = []
    return [*wrapped(' '.join(filter(None, found))), *([''] if here else []), *places(here)]


def types_chapter() -> List[str]:
    """Where each type of the code stands that a chapter names, by the files."""
    kinds = dict.fromkeys(kind for things in [*map(things_of, theorems()), shared_things()] for kind in types_of(things))
    files: Dict[Path, List[str]] = {}
    for kind in sorted(kinds, key=lambda kind: (kind.crate, kind.name)):
        found = source_of(kind.crate, rf'\s*pub (?:enum|struct) {kind.name}\b')
        assert found
        files.setdefault(found[0].relative_to(CRATES), []).append(kind.name)
    rows = (bullet(f'[{file}](../crates/{file}): {", ".join(f"`{name}`" for name in names)}') for file, names in files.items())
    return ['', f'## {TYPES_TITLE}', '', *(line for row in rows for line in row)]


def sentence(theorem: Theorem) -> str:
    """What a theorem says: its row in SAYS, the comment of the law, or the function's documentation, of which one sentence where that is no law."""
    if theorem.name in SAYS:
        return '\n\n'.join(part if part.startswith('|') else ' '.join(part.splitlines()) for part in SAYS[theorem.name].split('\n\n'))
    lines = (CRATES / theorem.file).read_text().splitlines()
    law = named(scope_of(lines), theorem.law)
    if isinstance(law, Definition) and law.comment and theorem.by_name != known():
        told_of = ' '.join(line.lstrip('- ') for line in law.comment)
        return told_of[:1].upper() + told_of[1:] + '.'
    at = next(at for at, line in enumerate(lines) if re.match(rf'pub fn {theorem.function}\b', line))
    told_of = ' '.join(line[len('/// '):] for line in doc_above(lines, at))
    return told_of if theorem.law else told_of.partition('. ')[0] + '.'


def clauses(definitions: List[Definition]) -> List[str]:
    """The lines of definitions without their types."""
    return [line for it in definitions for line in it.lines if not line.startswith(f'{it.name} : ')]


def chosen(theorem: Theorem) -> List[Definition]:
    """A theorem's law, or what its premises and its conclusions name first; with all that they lead to if that is short, or
    else with those of KEY; nothing where the law is long."""
    found = [it for it in things_of(theorem) if isinstance(it, Definition) and not is_by_name(it, theorem.by_name)]
    lines = (CRATES / theorem.file).read_text().splitlines()
    premises = begun(theorem, lines, [line for line in theorem.head(lines) if line.lstrip().startswith('requires')])
    first = [*[it for it in found if it in premises][:1], *[it for it in found if it not in premises][:1]]
    key = [it for it in found if it.name in KEY.get(theorem.name, ())]
    return found if len(clauses(found)) <= SHORT else [*first, *key] if key or len(clauses(first)) <= SHORT else []


@lru_cache(maxsize=None)
def quoted_for() -> Dict[Definition, Theorem]:
    """Of each definition that the page quotes the first theorem for which it does."""
    found: Dict[Definition, Theorem] = {}
    for theorem in theorems():
        for it in chosen(theorem):
            found.setdefault(it, theorem)
    return found


def quoted(theorem: Theorem) -> List[Definition]:
    """What the chapter of a theorem quotes: what no earlier one does."""
    return [it for it in chosen(theorem) if quoted_for()[it] == theorem]


@lru_cache(maxsize=None)
def words_told() -> Dict[str, str]:
    """What WORDS says, by the names."""
    rows = re.sub(r'\n +', ' ', WORDS.read_text()).splitlines()
    return {row.partition(':')[0].split()[0]: row for row in rows}


def told_of(thing: Thing) -> Tuple[str, str]:
    """A word with its arguments, and what it means; nothing where WORDS doesn't say it."""
    crate = thing.crate if isinstance(thing, RustType) else thing.module.split('.')[1]
    row = words_told().get(f'{crate}/{thing.name}', words_told().get(thing.name, ''))
    head, _, text = row.removeprefix(f'{crate}/').partition(': ')
    return head, text


def is_told(thing: Thing) -> bool:
    """Whether WORDS says what this means."""
    return bool(told_of(thing)[0])


def comment_of(definition: Definition) -> str:
    """What stands above a definition that is quoted: what WORDS says; above a record or where WORDS says nothing, its comment."""
    head, text = told_of(definition)
    if head and not (definition.comment and definition.lines[0].startswith(('record', 'data'))):
        return f'{head}: {text}'
    return ' '.join(line.lstrip('- ') for line in definition.comment if not line.startswith('-- ----'))


def law_of(theorem: Theorem) -> List[str]:
    """What the page quotes of a theorem, with what each definition means, but for the law: the chapter begins with that."""
    found: List[str] = []
    for it in quoted(theorem):
        said = comment_of(it) if it.name != theorem.law else ''
        found += textwrap.wrap(said, WIDTH, initial_indent='-- ', subsequent_indent='-- ', break_on_hyphens=False)
        found += [part for line in clauses([it]) for part in broken(line)]
    return found


def words_in(theorem: Theorem) -> List[Thing]:
    """The words of the contract and of what is quoted of a theorem that aren't quoted themselves."""
    here = quoted(theorem)
    lines = (CRATES / theorem.file).read_text().splitlines()
    return [it for it in dict.fromkeys([*begun(theorem, lines, theorem.head(lines)), *(it for each in here for it in uses(each))]) if it not in here]


def explaining(before: Dict[Theorem, FrozenSet[Thing]], things: List[Thing]) -> Dict[Theorem, List[Thing]]:
    """These words by the chapters before that have them, as few as may be: in turn the one that has most, and of several the one that quotes most."""
    found: Dict[Theorem, List[Thing]] = {}
    rest = list(things)
    while rest:
        best = max(before, key=lambda it: (sum(thing in before[it] for thing in rest), sum(thing in quoted(it) for thing in rest)))
        found[best] = [thing for thing in rest if thing in before[best]]
        rest = [thing for thing in rest if thing not in before[best]]
    return found


@lru_cache(maxsize=None)
def explained() -> Dict[str, Tuple[List[Thing], Dict[Theorem, List[Thing]]]]:
    """Of each theorem the words that its chapter explains, and the others by the chapters that do: those before it that are about the same, and for a word
    that WORDS doesn't have those that quote it."""
    found: Dict[str, Tuple[List[Thing], Dict[Theorem, List[Thing]]]] = {}
    has: Dict[Theorem, FrozenSet[Thing]] = {}
    for theorem in theorems():
        words = [it for it in words_in(theorem) if is_told(it) or it in quoted_for()]
        before = {it: things if groups()[it.name] == groups()[theorem.name] else things - frozenset(filter(is_told, things)) for it, things in has.items()}
        old = [it for it in words if any(it in things for things in before.values())]
        if theorem.name in ENTRIES or len(explaining(before, old)) > FEW:
            old = [it for it in old if not is_told(it)]
        elsewhere = explaining(before, old)
        here = [it for it in words if it not in old]
        found[theorem.name] = here, elsewhere
        has[theorem] = frozenset([*quoted(theorem), *here])
    return found


def words_of(theorem: Theorem) -> List[str]:
    """What the words of a theorem mean, or which chapter before says it. Of the standard library's words those that WORDS has."""
    for thing in words_in(theorem):
        assert is_told(thing) or isinstance(thing, Outside) or thing in quoted_for(), f'{WORDS.name}: nothing of {thing.name}, for {theorem.name}'
    here, elsewhere = explained()[theorem.name]
    found: List[str] = []
    for thing in here:
        head, text = told_of(thing)
        also = f'; quoted for {link(quoted_for()[thing])}' if isinstance(thing, Definition) and thing in quoted_for() else ''
        is_unlisted = is_by_name(thing, theorem.by_name) or len(below(theorem)) >= MANY and theorem.name not in listed_before()
        if isinstance(thing, Definition) and is_unlisted and not also and '](' not in text:
            file = file_of(thing.module).relative_to(CRATES)
            also = f' ([{file.stem}](../crates/{file}))'
        found += bullet(f'`{head}`: {text}{also}')
    sees = (f'{link(where)} for {", ".join(f"`{it.name}`" for it in things)}' for where, things in elsewhere.items())
    others = bullet('see ' + '; '.join(sees)) if elsewhere else []
    return ['', *found, *others] if found or others else []


def brief(theorem: Theorem) -> List[str]:
    """A theorem in the list of contents: its name, and the first sentence of what it says."""
    told_of = re.split(r'\. |\n', sentence(theorem))[0].rstrip('.')
    return bullet(f'{link(theorem)}: {told_of[:1].lower()}{told_of[1:]}.')


def chapter(theorem: Theorem, page: str) -> List[str]:
    """What docs/STATEMENTS.md has of a theorem."""
    lines = (CRATES / theorem.file).read_text().splitlines()
    head = theorem.head(lines)
    names_law = head[0] == f'pub fn {theorem.function}()' and re.fullmatch(rf' +ensures (?:\w+ )?\{{ {theorem.law} \}}', ''.join(head[1:]))
    is_clause = len(list(laws_in(theorem.file, theorem.function, theorem.by_name))) > 1
    what = 'a clause of the contract' if is_clause else 'the contract'
    of = f' This is {what} of [{theorem.file.split("/")[0]}::{theorem.function}](../crates/{theorem.file}).' if names_law else ''
    about_bytes = {0: [*wrapped(BYTES_SAY), *code('antt', words_of_bytes())]} if theorem.name == 'run' else {}
    first, *others = sentence(theorem).split('\n\n')
    ended = ENDED_SAYS if 'EndsLine' in {it.name for it in below(theorem)} else ''
    said = [line for at, part in enumerate([first + ended + of, *others]) for line in [*wrapped(part), *about_bytes.get(at, [])]]
    return ['', f'## {theorem.name}', *said, *([] if names_law else code('rust', head)), *code('antt', law_of(theorem)), *words_of(theorem),
            *links(things_of(theorem), theorem.by_name, page, listed_before().get(theorem.name), also_in(theorem))]


def shared_chapter(page: str) -> List[str]:
    """What it has of the larger commands."""
    rows = [line for head, text in map(told_of, shared_things()[:len(LARGER)]) for line in bullet(f'`{head}`: {text}')]
    return ['', f'## {SHARED_TITLE}', '', *SHARED_TEXT.splitlines(), '', *rows, *links(shared_things(), frozenset(), page)]


def kit() -> Optional[Path]:
    """The folder of the kit, where it is installed."""
    found = shutil.which('rt')
    return Path(found).resolve().parent.parent if found else None


def words_of_bytes() -> List[str]:
    """What the page quotes of the standard library: the kit's own text, or what the page has where there is no kit."""
    folder = kit()
    if folder is None:
        return str(re.findall(rf'^```antt\n({BYTES[0]} .*?)^```$', PAGE.read_text(), re.MULTILINE | re.DOTALL)[0]).splitlines()
    lines = (folder / KNOWN_BYTES).read_text().splitlines()
    return [line for word in BYTES for line in lines if line.startswith(f'{word} ')]


def contents() -> Iterator[str]:
    """The list of the theorems, by what they are about."""
    for title, group in groupby(theorems(), lambda it: groups()[it.name]):
        head = wrapped(SCRIPTS_SAY) if title == GROUPS[LAWS] else []
        yield from ('', f'**{title}**', *head, '', *(line for theorem in group for line in brief(theorem)))


def text_of(pages: Dict[str, str]) -> str:
    """The text of docs/STATEMENTS.md."""
    found = [line for theorem in theorems() for line in chapter(theorem, pages[theorem.page])] + shared_chapter(pages[SHARED_PAGE]) + types_chapter()
    last = ((SHARED_TITLE, SHARED_ANCHOR, SHARED_SAYS), (TYPES_TITLE, TYPES_ANCHOR, TYPES_SAYS))
    also = [line for name, anchor, says in last for line in bullet(f'[{name}]({anchor}): {says}.')]
    return '\n'.join([*HEAD.splitlines(), *contents(), '', '**What several theorems use**', '', *also, '', *BELOW.splitlines(), *found]) + '\n'


def arguments() -> argparse.Namespace:
    """What the command line says."""
    parser = argparse.ArgumentParser('tests/statement.py', description=__doc__, formatter_class=argparse.RawDescriptionHelpFormatter)
    parser.add_argument('--write', action='store_true', help='make docs/STATEMENTS.md anew')
    parser.add_argument('--pages', type=Path, metavar='FOLDER', help='write each theorem there as a page that can be read alone')
    return parser.parse_args()


def differing(old: str, new: str) -> Iterator[str]:
    """For each chapter of the page that is to be there what is wrong with it, or nothing."""
    before = old.split('\n## ')
    for part in new.split('\n## '):
        name = part.partition('\n')[0].lstrip('# ')
        yield '' if part in before else f'docs/STATEMENTS.md: "{name}" is not what --write makes'
    yield '' if len(before) == len(new.split('\n## ')) else 'docs/STATEMENTS.md has a chapter of no theorem'


def unused(text: str) -> Iterator[str]:
    """For each row of WORDS what is wrong with it, or nothing: the page is to have it."""
    page = ' '.join(re.sub('^-- ', '', text, flags=re.MULTILINE).replace('`', '').split())
    for name, row in words_told().items():
        head = row.partition(': ')[0].removeprefix(f'{name.partition("/")[0]}/')
        yield '' if f' {head}: ' in page else f'{WORDS.name}: nothing uses {name}'


def counted(text: str) -> str:
    """What is wrong with how many definitions docs/PROOFS.md says that `make_all` leads to, or nothing."""
    said = re.findall(r'there are (\d+ definitions)', ' '.join(text.split()))[0]
    return '' if f'leads to {said}' in ' '.join(PROOFS.read_text().split()) else f'docs/PROOFS.md: make_all leads to {said}'


def main() -> int:
    given = arguments()
    pages = {theorem.page: page_of(theorem) for theorem in theorems()}
    pages[SHARED_PAGE] = shared_page()
    if given.pages:
        given.pages.mkdir(parents=True, exist_ok=True)
        for name, page in pages.items():
            (given.pages / name).write_text(page)
    text = text_of(pages)
    if given.write:
        PAGE.write_text(text)
    skipped = [] if kit() else [without('rt', 'what the standard library says of bytes')]
    return told([*differing(PAGE.read_text() if PAGE.is_file() else '', text), *unused(text), counted(text)], skipped)


if __name__ == '__main__':
    sys.exit(main())
