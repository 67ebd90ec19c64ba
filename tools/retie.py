#!/usr/bin/env python3
"""Keeps a proof while the code of its function changes.

A Proof.antt names what was bound on the way to a need by counting `.before`; a new local or call shifts the counts. This tool writes the
names in place of the counts, and the counts again for the new code.

  tools/retie.py save CRATE FUNCTION..   before the change: keeps each proof with names, under target/retie/
  tools/retie.py load CRATE FUNCTION..   after it: writes the proofs anew. A need that is new is answered with `search needs`, one that is gone is left out,
                                         and both are told. `OLD=NEW` among the functions renames a thing on the path, and the needs that have its name.
Run it from the repository's root.
"""
import json
import pathlib
import re
import subprocess
import sys
import tempfile


def paths(crate, function):
    """what is bound on the way to each need, nearest first: a list of names for each `.before`"""
    with tempfile.TemporaryDirectory() as folder:
        subprocess.run(['rt', 'dev', crate, '--generated', folder], capture_output=True, text=True)
        text = next(pathlib.Path(folder).glob(f'Rattle·{crate}·proofs/proofs/{function}/Lts.antt')).read_text()
    records = {
        m.group(1): dict(re.findall(r'pub ([\w\-]+) : (\S+)', m.group(2)))
        for m in re.finditer(r'pub record ([\w\-]+) : Type 0 where\n((?:\s+pub .*\n)+)', text)
    }
    r = {}
    for m in re.finditer(r'Need-([\w\-]+) =\s*\(c : ([\w\-]+)\)', text):
        at, r[m.group(1)] = m.group(2), []
        while at in records and at != 'Start':
            r[m.group(1)].append([k for k in records[at] if k != 'before'])
            at = records[at].get('before')
        r[m.group(1)].append(['Start'])
    return r


def offered(crate, proof):
    """writes the proof file that the check prints for a function that has none"""
    out = subprocess.run(['rt', 'dev', crate], capture_output=True, text=True)
    lines = (out.stdout + out.stderr).split('\n')
    for i, line in enumerate(lines):
        m = re.match(r'help: write (\S+Proof\.antt) with these lines', line)
        if m and pathlib.Path(m.group(1)).resolve() == proof.resolve():
            body = []
            for l in lines[i + 1:]:
                if l.strip() and not l.startswith('    '):
                    break
                body.append(l[4:])
            proof.parent.mkdir(parents=True, exist_ok=True)
            proof.write_text('\n'.join(body).rstrip() + '\n')
            return True
    return False


def named(path, text):
    def one(m):
        i, rest = m.group(1).count('.before'), m.group(2)
        if i >= len(path):
            return m.group(0)
        names = path[i]
        if rest and rest in names:
            return f'⟨{rest}⟩'
        return f'⟨{names[0]}!⟩' + (f' .{rest}' if rest else '')
    return re.sub(r"(?<![\w\-'.])c((?: \.before)*)(?: \.(?!before)([\w\-]+))?(?![\w\-'])", one, text)


def clause(name, path, body):
    """the clause's own `c` stays"""
    m = re.search(rf'^{re.escape(name)} c(?: κs)? =', body, flags=re.M)
    return body[:m.end()] + named(path, body[m.end():])


def counted(path, text, need):
    def one(m):
        name, bare = m.group(1).rstrip('!'), m.group(1).endswith('!')
        i = [k for k, x in enumerate(path) if name in x]
        if not i:
            print(f'{need}: nothing is called {name} on its path')
            return m.group(0)
        return 'c' + ' .before' * i[0] + ('' if bare or name == 'Start' else f' .{name}')
    return re.sub(r'⟨([^⟩]+)⟩', one, text)


def parts(text):
    """head, then (name, type line, body) of each need, then the tail from `pub .. -spec` on"""
    i = text.index('\npub ')
    body, tail = text[:i], text[i:]
    found = list(re.finditer(r'^([\w\-₀-₉]+) : tie\.(Need-[\w\-]+)[^\n]*\n', body, flags=re.M))
    head = body[:found[0].start()] if found else body
    needs = []
    for k, m in enumerate(found):
        end = found[k + 1].start() if k + 1 < len(found) else len(body)
        needs.append((m.group(1), m.group(0), body[m.end():end]))
    return head, needs, tail


def main():
    what, crate = sys.argv[1:3]
    words = [w for w in sys.argv[3:] if '=' not in w]
    renamed = dict(w.split('=', 1) for w in sys.argv[3:] if '=' in w)
    for function in words:
        proof = pathlib.Path(f'crates/{crate}/proofs/{function}/Proof.antt')
        kept = pathlib.Path(f'target/retie/{crate}/{function.replace("/", "-")}.json')
        if what == 'save':
            head, needs, tail = parts(proof.read_text())
            p = paths(crate, function)
            kept.parent.mkdir(parents=True, exist_ok=True)
            kept.write_text(json.dumps({'head': head, 'needs': {n: [t, clause(n, p[n], b)] for n, t, b in needs}}, ensure_ascii=False, indent=1))
        else:
            old = json.loads(kept.read_text())
            if proof.exists():
                proof.unlink()
            if not offered(crate, proof):
                print(f'{function}: proved with no file')
                continue
            _, needs, _ = parts(proof.read_text())
            p = paths(crate, function)
            for a, b in renamed.items():
                old['needs'] = {re.sub(rf'(?<![\w]){a}(?![\w])', b, n): [t, re.sub(rf'⟨{a}(!?)⟩', rf'⟨{b}\1⟩', x)] for n, (t, x) in old['needs'].items()}
            out, loop = old['head'], (' Inv-loop μ-loop' if 'Inv-loop' in old['head'] else '')
            used = ['Inv-loop', 'μ-loop'] if loop else []
            for n, _, _ in needs:
                if n in old['needs']:
                    body = counted(p[n], re.sub(r'^[\w\-]+ c( κs)? =', lambda m: f"{n} c{m.group(1) or ''} =", old['needs'][n][1], count=1, flags=re.M), n)
                else:
                    print(f'{function}: new need {n}')
                    body = f"{n} {'c κs' if re.search(r'requires(-[0-9]+)?$', n) else 'c'} = search needs\n\n"
                out += f'{n} : tie.Need-{n}{loop}\n{body}'
                used.append(n)
            for n in old['needs']:
                if n not in used:
                    print(f'{function}: {n} is gone')
            name = function.split('/')[-1].replace('_', '-')
            out = out.rstrip() + f'\n\npub {name}-spec : {{M : Type 1}} → statement M\n{name}-spec =\n    tie.close\n    (tie.spec\n    ' + '\n    '.join(used) + ')\n'
            proof.write_text(out)


if __name__ == "__main__":
    main()
