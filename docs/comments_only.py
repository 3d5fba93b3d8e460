#!/usr/bin/env python3
"""Asks whether the crates differ from those of a commit in comments alone: docs/comments_only.py COMMIT

A change of comments can't break a proof, so it needs no thought of one. Looked at are whole lines of comments in .rt and .antt: the lines of code have to
be the same, a docstring stays one and doesn't go, and no line of a comment is longer than 160 signs. Prints what is otherwise, and how many lines of
comments are new or changed; ends with status 1 where something is otherwise.
"""
import os
import subprocess
import sys

ROOT = os.path.dirname(os.path.dirname(os.path.abspath(__file__)))
SIGNS = '///', '//!', '//', '--'
MOST = 160


def git(*words):
    return subprocess.run(['git', '-C', ROOT, *words], capture_output=True, check=True).stdout.decode()


def sign_of(line):
    """The sign of a comment with which the line begins, None of code."""
    return next((sign for sign in SIGNS if line.strip().startswith(sign)), None)


def parted(text):
    """The lines of code, and before each of them, and at the end, the lines of comments."""
    code, comments = [], [[]]
    for line in text.split('\n'):
        if sign_of(line):
            comments[-1].append(line)
        else:
            code.append(line)
            comments.append([])
    return code, comments


def faults_of(old, new):
    """What differs beside the comments, and how many lines of these are new."""
    (code, before), (code_now, after) = parted(old), parted(new)
    if code != code_now:
        return ['its code differs'], 0
    found, many = [], 0
    for was, now, line in zip(before, after, code + ['the end']):
        signs, signs_now = {sign_of(x) for x in was}, {sign_of(x) for x in now}
        many += sum(x not in was for x in now)
        if signs & {'///', '//!'} and not now or signs and not signs_now <= signs:
            found.append(f'a comment of another kind, or none any more, before {line.strip()!r}')
        found += [f'{len(x)} signs: {x.strip()[:60]}' for x in now if len(x) > MOST and x not in was]
    return found, many


def main():
    if len(sys.argv) != 2:
        sys.exit(__doc__)
    commit = sys.argv[1]
    faults = lines = 0
    for path in git('diff', '--name-only', '--no-renames', commit, '--', 'crates').split('\n')[:-1]:
        place = os.path.join(ROOT, path)
        if not os.path.exists(place) or not git('ls-tree', commit, path):
            found, many = ['stands on one side alone'], 0
        elif not path.endswith(('.rt', '.antt')):
            found, many = ['is no file of code'], 0
        else:
            with open(place, encoding='utf-8') as file:
                found, many = faults_of(git('show', f'{commit}:{path}'), file.read())
        for fault in found:
            print(f'{path}: {fault}')
        faults += len(found)
        lines += many
    print(f'{faults} differences beside comments, {lines} lines of comments new or changed')
    sys.exit(1 if faults else 0)


if __name__ == '__main__':
    main()
