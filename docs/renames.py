#!/usr/bin/env python3
"""Gives old names their new ones: docs/renames.py [--try] FOLDER

Drafts that were written before the renaming pass are brought up to its names by this. The pairs below are words of code,
definitions and proofs (never of comments, texts or documents), each with the crates in which the old word had the meaning that
is renamed; no crate named means all. Folders of proofs and files of definitions are moved with their words. FOLDER is the root of a
draft's tree with a folder `crates`; this repository has its new names. --try prints what a word would clash with and changes nothing.
"""
import os
import re
import sys

MODULES = [
    ('view_split', 'specs/Seen', 'specs/SeenViews'),
    ('blind_tree', 'specs/Seen', 'specs/ShownViews'),
    ('blind_tree', 'specs/Digests', 'specs/TreeHashes'),
    ('blind_tree', 'specs/Told', 'specs/RolesAfter'),
    ('plain_node', 'specs/Seen', 'specs/ModelItems'),
    ('lang_eval', 'specs/Shown', 'specs/RunAnswers'),
    ('interpret', 'specs/Shown', 'specs/TurnAnswers'),
]
WORDS = [
    ('note_template', 'note_template_name', ''),
    ('iou_template', 'iou_template_name', ''),
    ('loop_template', 'loop_template_name', ''),
    ('Seen', 'ChildResult', 'ledger_model lang_eval lang_check interpret canton_model sealed_form confirm_reply'),
    ('SeenList', 'ChildResultList', ''),
    ('seen_of', 'result_of_child', ''),
    ('what_is_seen', 'result_of_child', 'interpret'),
    ('guards', 'confirms_signatory_of', 'canton_model'),
    ('guarded', 'confirmed', 'canton_model proto_model sealed_form'),
    ('guard', 'confirmer', 'canton_model'),
    ('spent', 'consumed', 'interpret'),
    ('spend', 'consume', 'interpret'),
    ('is_spent', 'is_consumed', 'interpret'),
    ('with_spent', 'with_consumed', 'interpret'),
    ('spent', 'reserved', 'world_model seq_log threads_model plain_node report_text'),
    ('spent_more', 'reserved_more', 'world_model'),
    ('digests', 'hashes_of_vertices', 'blind_tree'),
    ('leaf_digest', 'hash_of_leaf', ''),
    ('root_digest', 'hash_of_root', ''),
    ('view_digests', 'hashes_of_views', ''),
    ('digest_of_vertex', 'hash_of_vertex', ''),
    ('digests_with', 'hashes_with_vertex', ''),
    ('digests_length', 'hashes_of_vertices_length', ''),
    ('digests_long', 'hashes_are_long', ''),
    ('told', 'verdict_content', 'canton_model plain_node world_model'),
    ('seen', 'model_items', 'plain_node'),
    ('seen_item', 'model_item', 'plain_node'),
    ('seen_content', 'model_content', 'plain_node'),
    ('Part', 'CommitRoots', 'canton_model consist'),
    ('unordered', 'find_unordered', 'consist tree_cases'),
    ('inconsistent', 'find_inconsistent', 'consist tree_cases'),
    ('joined', 'with_signatories', 'authorise'),
    ('extended', 'extended_path', 'blind_tree'),
    ('dotted', 'dotted_name', 'lang_check'),
    ('vetted', 'vetted_packages', 'load_gen'),
    ('looping', 'looping_template', 'load_gen'),
    ('submitted', 'submission_of', 'load_gen'),
]
ENDINGS = ('.rt', '.antt', '.edit')


def pieces(text, ending):
    """The text cut in pieces, each with whether it is code: comments and texts aren't."""
    marks = r'--[^\n]*|"(?:[^"\\]|\\.)*"' if ending == '.antt' else r'//[^\n]*|"(?:[^"\\]|\\.)*"'
    at = 0
    for found in re.finditer(marks, text):
        yield True, text[at:found.start()]
        yield False, found.group()
        at = found.end()
    yield True, text[at:]


def renamed(text, pairs, ending):
    if not pairs:
        return text
    table = dict(pairs)
    pattern = re.compile(r"(?<![\w'])(%s)(?![\w'])" % '|'.join(re.escape(old) for old in sorted(table, key=len, reverse=True)))
    return ''.join(pattern.sub(lambda m: table[m.group()], piece) if code else piece for code, piece in pieces(text, ending))


def module_paths(text, inside):
    for crate, old, new in MODULES:
        old, new = old.split('/')[1], new.split('/')[1]
        text = re.sub(r'\bRattle\.%s\.specs\.%s\b' % (crate, old), 'Rattle.%s.specs.%s' % (crate, new), text)
        if inside == crate:
            text = re.sub(r'\bcrate::specs::%s::' % old, 'crate::specs::%s::' % new, text)
            text = re.sub(r'(?m)^pub mod %s$' % old, 'pub mod %s' % new, text)
    return text


def main():
    words = [word for word in sys.argv[1:] if word != '--try']
    tries = '--try' in sys.argv
    if len(words) != 1:
        sys.exit(__doc__)
    root = os.path.join(words[0], 'crates')
    for crate in sorted(os.listdir(root)):
        pairs = [(old, new) for old, new, where in WORDS if not where or crate in where.split()]
        top = os.path.join(root, crate)
        if not os.path.isdir(top):
            continue
        for folder, _, names in os.walk(top):
            if '/out' in folder:
                continue
            for name in names:
                ending = os.path.splitext(name)[1]
                path = os.path.join(folder, name)
                if ending not in ENDINGS:
                    continue
                with open(path, encoding='utf-8') as file:
                    before = file.read()
                after = renamed(module_paths(before, crate), pairs, ending)
                if tries:
                    used = set(re.findall(r"[\w']+", before))
                    for old, new in pairs:
                        if new in used and old in used and re.search(r"(?<![\w'])%s(?![\w'])" % old, ''.join(p for c, p in pieces(before, ending) if c)):
                            print('%s: %s and %s' % (os.path.relpath(path, root), old, new))
                elif after != before:
                    with open(path, 'w', encoding='utf-8') as file:
                        file.write(after)
        if tries:
            continue
        for owner, old, new in MODULES:
            if owner == crate and os.path.exists(os.path.join(top, old + '.antt')):
                os.rename(os.path.join(top, old + '.antt'), os.path.join(top, new + '.antt'))
        table = dict(pairs)
        for folder, below, names in os.walk(os.path.join(top, 'proofs'), topdown=False):
            for name in below:
                bare = name.lstrip('+')
                if bare in table:
                    os.rename(os.path.join(folder, name), os.path.join(folder, name.replace(bare, table[bare])))
        for old, new in pairs:
            if os.path.exists(os.path.join(top, 'src', old + '.rt')):
                os.rename(os.path.join(top, 'src', old + '.rt'), os.path.join(top, 'src', new + '.rt'))


if __name__ == '__main__':
    main()
