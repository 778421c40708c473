#!/usr/bin/env python3
"""Do the stored lists notice a slip? Each slip below is one change to a copy of the judge (the cut copy or what it
uses); both lists are run against it. Prints how many cases of each fail; 0 would be a gap in a list. At the end stand
changes that no input can show (docs/DIFFERENCES.md): of them none may fail.
Takes some minutes: slips.py DIRECTORY-TO-WORK-IN [FIRST LAST]. slips.txt holds its last output.
"""
import os, shutil, subprocess, sys

CUT, BLOCKS, MOD, ALLOC = 'src/cut/ac3.rs', 'src/cut/blocks.rs', 'src/cut/mod.rs', 'ddpmeta/alloc.rs'
UNCOUPLED = '                phsflginu = false;\n            }\n        }'
WALK = '''            conventional(cur, &bap[ch], 0, endmant[ch], &mut g, &mut used[ch])?;
            if cplinu && chincpl[ch] && !got_cpl {
                conventional(cur, &bap[CPL], cplstrt, cplend, &mut g, &mut used[CPL])?;
                got_cpl = true;
            }
'''
SENT = '                coordinates_sent &= !chincpl[ch] || had_coordinates[ch];\n'
COUNTED = '        if n > 0 {\n            cur.raw(n, "mantissa")?;\n            *used += n;\n'
RECORD = '        let at = ROW * self.count;\n'
READ = '        self.check(width, name, name)?;\n        let (block, pos)'
SLIPS = [  # what, file, old, new
    # the slips that docs/FORMAT.md shuts out
    ('coupling range to its last bin', CUT, 'let cplend = 37 + 12 * (cplendf + 3);', 'let cplend = 37 + 12 * (cplendf + 3) - 1;'),
    ('mantissa group open across blocks', CUT, '        let mut g = Groups::default();\n', '        if blk == 0 { g = Groups::default(); }\n'),
    ('mantissa group closed at each channel', CUT, WALK, '            g = Groups::default();\n' + WALK),
    ('LFE reads the band after its last', ALLOC, 'bndend == 7 && bin == 6', 'bndend == 7 && bin == 60'),
    ('delta cleared by deltbaie 0 in a later block', CUT, '        } else if blk == 0 {\n            for d', '        } else {\n            for d'),
    ('coupling channels kept after cplinu 0', CUT, '                chincpl = [false; 5];\n                phsflginu', '                phsflginu'),
    # room and rows
    ('room before the frame end', MOD, READ, '        if ROW * self.count + ROW > self.room.len() { return no(7, ""); }\n' + READ),
    ('a row in the left-over numbers', MOD, RECORD, RECORD + '        if at < self.room.len() && at + ROW > self.room.len() { self.room[at] = 0; }\n'),
    ('refusal 7 at the start of the mantissas', MOD, '        self.record_span(name, role, start, self.pos - start)', '        let width = self.pos - start;\n        if ROW * self.count + ROW > self.room.len() { self.pos = start; }\n        self.record_span(name, role, start, width)'),
    ('no row for spans of width 0', MOD, RECORD, '        if field.width == 0 { return Ok(()); }\n' + RECORD),
    ('the place counted in positions', MOD, '    let verdict = ac3::parse(&mut cur);', '    let verdict = ac3::parse(&mut cur);\n    cur.pos += if verdict.is_err() { place.min(1) } else { 0 };'),
    ('programme of dynrng2 is 0', 'src/names.rs', 'Role::Dynrng(p) => (10, i32::from(p))', 'Role::Dynrng(_) => (10, 0)'),
    ('index of coupling delta segments is 0', MOD, '            index,\n', '            index: if name == "cpldeltoffst" { 0 } else { index },\n'),
    ('coordinates judged in the first coupled block alone', CUT, SENT, SENT.replace('!chincpl', 'cpl_blocks > 1 || !chincpl')),
    ('coordinates judged in the last coupled block alone', CUT, SENT, '                coordinates_sent = (ch == 0 || coordinates_sent) && (!chincpl[ch] || had_coordinates[ch]);\n'),
    ('coordinates to be sent in every block', CUT, SENT, SENT.replace('had_coordinates', 'cplcoe')),
    ('coordinates forgotten as a channel leaves', CUT, SENT, '                had_coordinates[ch] &= chincpl[ch];\n' + SENT),
    ('coordinates forgotten in a pause', CUT, UNCOUPLED, UNCOUPLED.replace('false;', 'false;\n                had_coordinates = [false; 5];')),
    ('coordinates asked of channels that are not coupled', CUT, SENT, SENT.replace('!chincpl[ch] || ', '')),
    ('blocks with a new strategy counted', CUT, '            cpl_blocks += 1;', '            cpl_blocks += usize::from(cplstre);'),
    # which band, group or segment
    ('bands counted from 1', CUT, 'cur.get_part("cplcoexp", ch, bnd, 4)', 'cur.get_part("cplcoexp", ch, bnd + 1, 4)'),
    ('bands counted across the channels', CUT, 'cur.get_part("cplcomant", ch, bnd, 4)', 'cur.get_part("cplcomant", ch, bnd + ch * ncplbnd, 4)'),
    ('the absolute exponent told as a group', BLOCKS, 'cur.geti(absname, index, 4)', 'cur.get_part(absname, index, 0, 4)'),
    ('groups counted by their exponents', BLOCKS, 'cur.get_part(grpname, index, grp, 7)', 'cur.get_part(grpname, index, 3 * grp, 7)'),
    ('the ba of a segment told with the one before', BLOCKS, 'cur.get_part(b, slot, seg, 3)', 'cur.get_part(b, slot, seg.saturating_sub(1), 3)'),
    ('segments of coupling not told', BLOCKS, 'cur.get_part(l, slot, seg, 4)', 'if slot == CPL { cur.geti(l, slot, 4) } else { cur.get_part(l, slot, seg, 4) }'),
    ('rows eight numbers apart', MOD, RECORD, RECORD.replace('ROW', '8')),
    ('a row without its part in eight numbers', MOD, RECORD, RECORD + '        if at + 8 == self.room.len() { self.room[at..].copy_from_slice(&row(field, part)[..8]); self.count += 1; return Ok(()); }\n'),
    # what a refusal tells
    ('rematstr told as baie', CUT, 'no(21, "rematstr', 'no(22, "rematstr'),
    ('snroffste told as cplstre', CUT, 'no(23, "snroffste', 'no(8, "snroffste'),
    ('a skip field told as skipl', MOD, 'name: names::number(name),', 'name: names::number(name) - i32::from(name == "skipfld"),'),
    ('mantissas told as the field before', MOD, 'self.check(width, what, "mantissas")?', 'self.check(width, what, "skiple")?'),
    ("a block's first field told in the block before", MOD, 'block: self.block.into(),', 'block: i32::from(self.block) - i32::from(name == "blksw"),'),
    ('what has no row told too', MOD, 'return no(7, "no row left");', 'return Err(No { number: 7, text: String::new(), unfit: Unfit { name: names::number(field.name), block: self.block.into() } });'),
    # order and limits of judgements
    ('row for a bad group not written', MOD, '        self.count += 1;\n', '        if !(field.name == "exps[ch]" && field.value > 124) { self.count += 1; }\n'),
    ('fscod judged before frmsizecod', CUT, '    let frmsizecod =', '    if fscod == 3 { return no(3, ""); }\n    let frmsizecod ='),
    ('cplbegf cplendf + 3 accepted', CUT, 'if cplbegf > cplendf + 2 {', 'if cplbegf > cplendf + 3 {'),
    ('cplbegf cplendf + 2 refused', CUT, 'if cplbegf > cplendf + 2 {', 'if cplbegf > cplendf + 1 {'),
    ('one coupled channel accepted', CUT, '.count() < 2 {', '.count() < 1 {'),
    ('chbwcod 61 accepted', CUT, 'if c > 60', 'if c > 61'),
    ('bsid 9 accepted', CUT, 'if bsid > 8', 'if bsid > 9'),
    ('frame one byte short accepted', CUT, 'if length < bytes', 'if length + 1 < bytes'),
    ('cplabsexp judged', BLOCKS, '    let mut exp = vec![0i16; 256];', '    if prev > 24 { return no(17, ""); }\n    let mut exp = vec![0i16; 256];'),
    ('steps past the end not judged', BLOCKS, 'if !(0..=24).contains(&prev) {', 'if out.len() < end && !(0..=24).contains(&prev) {'),
    ('bandwidth never judged', CUT, '                    None => return no(12, "channel bandwidth unknown"),', '                    None => 0,'),
    ('cpldeltbae not judged', CUT, '                st.delta_code(CPL, codes[CPL], blk == 0)?;\n            }', '            }'),
    # what is kept from block to block
    ('coupling exponents forgotten in a pause', CUT, UNCOUPLED, UNCOUPLED.replace('false;', 'false;\n                exps[CPL] = None;')),
    ('leak forgotten in a pause', CUT, UNCOUPLED, UNCOUPLED.replace('false;', 'false;\n                st.cplleak = None;')),
    ('coupling delta forgotten in a pause', CUT, UNCOUPLED, UNCOUPLED.replace('false;', 'false;\n                st.delta[CPL].clear();')),
    ('coupling offsets forgotten in a pause', CUT, UNCOUPLED, UNCOUPLED.replace('false;', 'false;\n                st.fsnroffst[CPL] = 0;')),
    ('channel reuse refused as coupling changes', CUT, 'e.end != endmant[ch])', 'e.end != endmant[ch] || cplstre && cplinu != (cpl_blocks > blk))'),
    ('delta of deltbae 0 in a later block cleared', BLOCKS, '            0 | 1 => Ok(()),', '            0 => { self.delta[slot].clear(); Ok(()) }\n            1 => Ok(()),'),
    ('three rematrixing bands from cplbegf 2 only', CUT, '} else if cplbegf > 0 {', '} else if cplbegf > 1 {'),
    # allocation and mantissas
    ('zero SNR looks at offsets of slots not in use', BLOCKS, 'slots.iter().all(|s| st.fsnroffst[s.slot] == 0)', 'st.fsnroffst.iter().all(|&f| f == 0)'),
    ('zero SNR slot by slot', BLOCKS, '        if all_zero {', '        if all_zero || csnr == 0 && st.fsnroffst[s.slot] == 0 {'),
    ('zero SNR does not excuse the leak', BLOCKS, '        if all_zero {', '        if all_zero && (s.slot != CPL || st.cplleak.is_some()) {'),
    ('lowcomp 320 from bin 6', ALLOC, 'if bin < 7 {', 'if bin < 6 {'),
    ('mask keeps one bit less', ALLOC, 'm &= 0x1fe0', 'm &= 0x0fe0'),
    ('knee shift rounds up', ALLOC, '(p.dbknee - bndpsd[bin]) >> 2', '(p.dbknee - bndpsd[bin] + 3) >> 2'),
    ('delta at a coupling band start', ALLOC, 'let mut band = 0usize;', 'let mut band = if c.leak.is_some() { bndstrt } else { 0 };'),
    ('delta past band 49 falls on band 49', ALLOC, '            if band < 50 {\n                mask[band] += delta;', '            {\n                mask[band.min(49)] += delta;'),
    ('hearing threshold of 48 kHz for 32 kHz', ALLOC, 'HEARING[50 * p.fscod + bin]', 'HEARING[50 * (p.fscod % 2) + bin]'),
    ('excitation without slow leak below band 22', ALLOC, '(fastleak - lowcomp).max(slowleak)', '(fastleak - lowcomp)'),
    ('exponents of a group repeated too little', BLOCKS, '            for _ in 0..grpsize {', '            for _ in 0..grpsize.min(3) {'),
    ('coupling mantissas before their channel', CUT, WALK, '''            if cplinu && chincpl[ch] && !got_cpl {
                conventional(cur, &bap[CPL], cplstrt, cplend, &mut g, &mut used[CPL])?;
                got_cpl = true;
            }
            conventional(cur, &bap[ch], 0, endmant[ch], &mut g, &mut used[ch])?;
'''),
    ('coupling mantissas after the channels', CUT, WALK + '        }\n', '''            conventional(cur, &bap[ch], 0, endmant[ch], &mut g, &mut used[ch])?;
            got_cpl |= cplinu;
        }
        if got_cpl {
            conventional(cur, &bap[CPL], cplstrt, cplend, &mut g, &mut used[CPL])?;
        }
'''),
    ('LFE mantissas first', CUT, '        for ch in 0..nfchans {\n' + WALK + '        }\n        if lfeon {\n            conventional(cur, &bap[LFE], 0, 7, &mut g, &mut used[LFE])?;\n        }\n', '        if lfeon {\n            conventional(cur, &bap[LFE], 0, 7, &mut g, &mut used[LFE])?;\n        }\n        for ch in 0..nfchans {\n' + WALK + '        }\n'),
    # mantissa bits by slot
    ("a group's bits counted to the slot of its last member", BLOCKS, COUNTED, '        *used += match b {\n            1 if g.g1 == 0 => 5,\n            2 if g.g2 == 0 => 7,\n            4 if g.g4 == 0 => 7,\n            1 | 2 | 4 => 0,\n            _ => n,\n        };\n' + COUNTED.replace('            *used += n;\n', '')),
    ("coupling's bits counted to its first channel", CUT, '&mut used[CPL])?', '&mut used[ch])?'),
    ("LFE's bits counted to coupling", CUT, '&mut used[LFE])?', '&mut used[CPL])?'),
    ("all blocks' bits counted to the first", CUT, '&mut mantissa_bits[blk]', '&mut mantissa_bits[0]'),
    ('bits told slot by slot', MOD, 'SLOTS * block + slot]', '6 * slot + block]'),
]

UNSEEN = [
    ('negative shift rounds towards zero', ALLOC, '((psd[i] - m) >> 5)', '((psd[i] - m) / 32)'),
    ('the mask keeps every bit from 5 on', ALLOC, 'm &= 0x1fe0', 'm &= !0x1f'),
    ('lowcomp tests at least', ALLOC, 'b0 + 256 == b1', 'b0 + 256 <= b1'),
    ('a delta segment ends at band 49', ALLOC, '            if band < 50 {', '            if band >= 50 { break; }\n            if band < 50 {'),
    ('phsflginu kept after cplinu 0', CUT, UNCOUPLED, UNCOUPLED.replace('phsflginu = false;', '')),
    ('deltbaie 0 in block 0 clears nothing', CUT, '                d.clear();', '                let _ = d;'),
    ('exponents past bin 252 not kept', BLOCKS, 'if base + i < 256 {', 'if base + i < 253 {'),
]

here = os.path.dirname(os.path.abspath(__file__))
work = sys.argv[1]
copy = os.path.join(work, 'judge')
if os.path.exists(copy):
    shutil.rmtree(copy)
shutil.copytree(here, copy)
for program in os.listdir(copy + '/src/bin'):
    if program != 'check_vectors.rs':
        os.remove(f'{copy}/src/bin/{program}')
# Many builds and short runs: build fast rather than well.
env = dict(os.environ, CARGO_TARGET_DIR=os.path.join(work, 'target'), CARGO_INCREMENTAL='1', CARGO_PROFILE_RELEASE_OPT_LEVEL='1')
gaps = 0
first, last = (int(n) for n in sys.argv[2:4]) if len(sys.argv) > 3 else (0, len(SLIPS) + len(UNSEEN))
for what, file, old, new in (SLIPS + UNSEEN)[first:last]:
    path = f'{copy}/{file}'
    text = open(path).read()
    assert text.count(old) >= 1, what
    changed = text.replace(old, new, 1)
    if what == 'mantissa group open across blocks':
        changed = changed.replace('    for blk in 0..6usize {', '    let mut g = Groups::default();\n    for blk in 0..6usize {')
    open(path, 'w').write(changed)
    build = subprocess.run(['cargo', 'build', '--release', '--offline', '-q'], cwd=copy, env=env, capture_output=True, text=True)
    said = []
    for name in ('list.txt', 'replay.bin'):
        if build.returncode:
            said.append('does not build: ' + build.stderr[:400])
            break
        with open(f'{here}/vectors/{name}', 'rb') as stored:
            run = subprocess.run([env['CARGO_TARGET_DIR'] + '/release/check_vectors'], stdin=stored, capture_output=True, text=True)
        end = run.stdout.splitlines()[-1] if run.stdout else ''
        said.append(f'{name} {end}' if ' cases, ' in end else f'{name} stops the program')
        gaps += (' 0 wrong' in end) != ((what, file, old, new) in UNSEEN)
    print(f'{what}: {"; ".join(said)}', flush=True)
    open(path, 'w').write(text)
print(f'{last - first} changes, {gaps} not as expected')
