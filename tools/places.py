#!/usr/bin/env python3
"""Counts the places that read like an older Rattle, in crates/*/src, by kind; with -l it lists them.

usage: python3 tools/places.py [-l]     at the top of the repository
"""
import glob
import re
import sys

FN = r'fn \w+(?:<[^>]*>)?\s*\('
TESTS = 'bench file_test queue_test ranking_long ranking_test search_test'.split()

# Each kind: the point it belongs to, its name, what it looks like in a file's text, and the crates that are left out or looked at alone.
KINDS = [
    (1, 'an Option of a refusal or fault as a result', r'-> Option<(?:Refusal|\(u8, usize\))>', None, None),
    (1, 'a bool that says whether a &mut parameter got a value', FN + r'[^{;]*?&mut[^{;]*?\)\s*-> bool', TESTS, None),
    (1, 'the same in tests', r'fn (?:add|remove|count_up)\([^{;]*?&mut[^{;]*?\)\s*-> bool', None, TESTS),
    (1, 'an error or none handed on by a match',
     r'(?:Err\(\w+\)|None) => (?:return )?(?:Err\(\w+\)|None),|None => false,|Some\((why)\) => Some\(\1\)|if let Some\(\w+\) = [^{;]*\{\s*return (?:Err|Some)\(\w+\);|if let Err\((\w+)\) = [^{;]*\{\s*return Err\(\2\);', None, None),
    (1, 'flags beside values', r'\w+: \[bool; \d+\],', None, None),
    (1, 'a kind by its number', r'kind\(file\) [!=<>]=? ?\d|\w+ as u8 [!=]= ', None, None),
    (1, 'an own Result: a case with the value, cases without', r'^pub enum Drawing \{|^enum Line \{\s*Tree', None, None),
    (2, 'a function or an impl for each kind of weight', r'fn (?:read|show)_(?:scores|costs|marks)\(|fn (?:scores|costs|marks)_agree\(|impl Filed for', None, None),
    (2, 'a function for signed and one for unsigned numbers', r'fn (?:width|put|signed_width|put_signed)\(', None, ['text']),
    (2, 'a type for each range of a place', r'pub struct (?:Score|Cost|Mark|Root)\b', None, None),
    (2, 'a function that writes or reads one element', r'\n\{\n    \w+(?:\.\w+)?\[[^\]]*\] = [^;]*;\n\}|\n\{\n    let (\w+) = \w+\[[^\]]*\];\n    \1\n\}', None, None),
    (2, 'the drawing of a random number', r'6364136223846793005', None, None),
    (2, 'the memory of a sheet laid out', r'= \[[^\]]*; 1640\]|weights: Vec<K>|weights: \[K; 1640\]|&mut \[\w+; 1640\]', None, None),
    (2, 'a set of one word', r'fn only\(', None, None),
    (2, 'heads copied to the front of a space', r'fn (?:hand_out|write_heads)\(', None, None),
    (3, 'a counted range whose number indexes', r'for (\w+) in [^{]*\.\.[^{]*\{(?:(?!\n    \}\n)[\s\S])*?\[[^\]]*\b\1\b[^\]]*\]', None, None),
    (3, 'a while or loop that counts', r'(?:while [^{]*|\'\w+: loop )\{(?:(?!\n    \}\n)[\s\S])*?\b\w+ [+-]= 1;|while \w+\.len\(\) < count', None, None),
    (3, 'a counter beside a for', r'\b(\w+) = \1\.wrapping_add\((?:1|more)\)', None, None),
    (4, 'a cast', r'\bas (?:u8|usize|u64|i64)\b', None, None),
    (4, 'an equality, search or conversion written by hand', r'fn (?:same|all_same|answered|told|last_of|kind_numbered|ending|place_of|has)\b', None, None),
    (4, 'a refusal or a kind printed by hand', r'refused \{|"kind: \w', None, None),
    (5, 'a part of the working space as a parameter', r'^\s+(?:nodes|merges|potentials): &(?:mut )?\[[^\]]*\],$', None, None),
    (5, 'a bound on the words in a contract', r'(?:\bn|words) ≤ 40', None, None),
    (6, 'an array with a length or another array beside', r'\w+: \[[^\]]*(?:\[[^\]]*\])?[^\]]*; (?:80|625|65|ROOM|1681)\],|\[u8; 160\], usize', None, None),
    (7, 'a function value, a dyn or a switch on a step', r'\bdyn \b|\bimpl Fn|fn\(|match step\b', None, None),
]


def main():
    listed = '-l' in sys.argv[1:]
    total = {}
    for point, name, look, without, alone in KINDS:
        found = []
        for path in sorted(glob.glob('crates/*/src/*.rt')):
            crate = path.split('/')[1]
            if (without and crate in without) or (alone and crate not in alone):
                continue
            text = open(path, encoding='utf-8').read()
            for m in re.finditer(look, text, re.M):
                found.append('%s:%d' % (path, text.count('\n', 0, m.start() + 1) + 1))
        total[point] = total.get(point, 0) + len(found)
        print('%d  %4d  %s' % (point, len(found), name))
        if listed:
            for place in found:
                print('           ' + place)
    for point in sorted(total):
        print('point %d: %d' % (point, total[point]))


main()
