#!/bin/sh
# How the time of a query grows with its rows: 1,000 and 10,000 rows of an object that is private and shared row by row, with a
# path to a parent, in the order of that and of a field of their own. Usage: bench/queries.sh [PROGRAM], which is apexd as it was
# built by default. Each figure is the median of five runs of a whole process, less that of the same bundle with an empty block.
# Ten times the rows should take 13 times the time at the most.
set -eu
top=$(CDPATH='' cd -- "$(dirname -- "$0")/.." && pwd)
program=${1:-$top/crates/apexd/out/apexd}
[ -n "${1:-}" ] || (cd "$top/crates/apexd" && rt run </dev/null >/dev/null 2>&1) || true
exec python3 - "$program" <<'P'
import json, resource, statistics, subprocess, sys
program = sys.argv[1]
digits = '0123456789ABCDEFGHIJKLMNOPQRSTUVWXYZabcdefghijklmnopqrstuvwxyz'
def id_of(prefix, n):
    text = ''
    for _ in range(4): text = digits[n % 62] + text; n //= 62
    return prefix + '00000000' + text
def bundle(rows, block):
    users = [{'name': 'ann'}, {'name': 'bob'}]
    parent = {'name': 'Parent__c', 'prefix': 'p00', 'default': 'Edit', 'fields': [{'name': 'Name', 'type': 'Text', 'length': 80}]}
    child = {'name': 'Child__c', 'prefix': 'c00', 'default': 'Private', 'fields': [{'name': 'Name', 'type': 'Text', 'length': 80},
        {'name': 'Parent__c', 'type': 'Lookup', 'to': 'Parent__c', 'relation': 'Parent__r', 'children': 'Children__r'}]}
    parents = [{'Id': id_of('p00', n + 1), 'OwnerId': '005000000000002', 'Name': 'p%d' % (n * 7919 % rows)} for n in range(rows // 10)]
    children = [{'Id': id_of('c00', n + 1), 'OwnerId': '005000000000002', 'Name': 'c%d' % (n * 104729 % rows), 'Parent__c': id_of('p00', n % (rows // 10) + 1)} for n in range(rows)]
    shares = [{'Id': id_of('00r', n + 1), 'OwnerId': '005000000000002', 'RowId': id_of('c00', n + 1), 'UserId': '005000000000001', 'Level': 'Read'} for n in range(rows)]
    seed = [{'object': 'Parent__c', 'rows': parents}, {'object': 'Child__c', 'rows': children}, {'object': 'RowShare', 'rows': shares}]
    tenant = {'name': 'acme', 'users': users, 'objects': [parent, child], 'units': [], 'seed': seed, 'sessions': [{'user': 'ann', 'requests': [{'apex': block}]}]}
    return json.dumps({'version': 1, 'tenants': [tenant]}).encode()
def seconds(text):
    before = resource.getrusage(resource.RUSAGE_CHILDREN)
    done = subprocess.run([program, 'turns', '-'], input=text, stdout=subprocess.PIPE, check=True)
    after = resource.getrusage(resource.RUSAGE_CHILDREN)
    return after.ru_utime + after.ru_stime - before.ru_utime - before.ru_stime, done.stdout.decode()
def median(text): return statistics.median(seconds(text)[0] for _ in range(5))
query = 'List<Child__c> l = [SELECT Name, Parent__r.Name FROM Child__c ORDER BY Parent__r.Name DESC, Name]; System.debug(l.size());'
took = {}
for rows in (1000, 10000):
    lines = seconds(bundle(rows, query))[1].split('\n')
    assert lines[2] == '| %d' % rows, lines[:4]
    took[rows] = median(bundle(rows, query)) - median(bundle(rows, ''))
    print('%6d rows: %.4f s' % (rows, took[rows]))
print('ten times the rows: %.1f times the time' % (took[10000] / max(took[1000], 1e-9)))
P
