// Tries the extension for Visual Studio Code, with stand-ins for its interface and for the two programs; and with the real
// programs where PIPERENCH and PIPELENS name them.
'use strict';

const assert = require('node:assert');
const childProcess = require('node:child_process');
const fs = require('node:fs');
const Module = require('node:module');
const os = require('node:os');
const path = require('node:path');
const { test, beforeEach, after } = require('node:test');
const fake = require('./fake_vscode');

const load = Module._load;
Module._load = (name, ...rest) => (name === 'vscode' ? fake.vscode : load(name, ...rest));
const { user, noted } = fake;
const extension = require('../vscode/extension');
const findings = require('../vscode/findings');

const place = fs.mkdtempSync(path.join(os.tmpdir(), 'dil-editor-'));
const bin = path.join(place, 'the programs');
const work = path.join(place, "a user's work");
process.env.PLACE = place;
// (temporary files of the extension)
process.env.TMPDIR = path.join(place, 'tmp');
const context = {
    subscriptions: [],
    globalStorageUri: fake.vscode.Uri.file(path.join(place, 'storage')),
    workspaceState: {
        kept: new Map(),
        get: (key) => context.workspaceState.kept.get(key),
        update: async (key, value) => context.workspaceState.kept.set(key, value),
    },
};

/** Writes a stand-in for a program, which notes its words in the file `calls`. */
function standIn(name, script, folder = bin) {
    const note = `printf '%s\\n' "${name} $*" >>"$PLACE/calls"`;
    fs.writeFileSync(path.join(folder, name), `#!/bin/sh\n${note}\n${script}\n`, { mode: 0o755 });
}

const calls = () => (fs.existsSync(`${place}/calls`) ? fs.readFileSync(`${place}/calls`, 'utf8').trimEnd().split('\n') : []);
const pause = (milliseconds) => new Promise((resolve) => setTimeout(resolve, milliseconds));

/** Waits until something holds, for ten seconds at most. */
async function until(holds, what) {
    for (let turns = 0; turns < 1000; turns++) {
        if (holds()) {
            return;
        }
        await pause(10);
    }
    assert.fail(`never came: ${what}`);
}

const shown = (document) => noted.diagnostics.get(document.uri.toString());
const untilShown = (document) => until(() => shown(document) !== undefined, `an answer for ${document.uri}`);

/** A finding as pipelens writes it, in a line. */
function finding(line, column, endColumn, code, message, severity = 'error') {
    return JSON.stringify({ file: 'f', line, column, end_column: endColumn, severity, code, message });
}

/** A stand-in for pipelens that writes findings to every text. */
function finds(status, ...lines) {
    fs.writeFileSync(path.join(place, 'findings'), lines.map((line) => `${line}\n`).join(''));
    standIn('pipelens', `cat "$2" >"$PLACE/text"; cat "$PLACE/findings"; exit ${status}`);
}

beforeEach(() => {
    for (const folder of [bin, work, process.env.TMPDIR]) {
        fs.rmSync(folder, { recursive: true, force: true });
        fs.mkdirSync(folder);
    }
    fs.rmSync(path.join(place, 'calls'), { force: true });
    [...fake.vscode.workspace.textDocuments].forEach((document) => user.closes(document));
    Object.assign(user, { savesNothing: false, picks: undefined, file: undefined, presses: undefined, cancels: false });
    fake.vscode.window.activeTextEditor = undefined;
    context.workspaceState.kept.clear();
    user.sets({ programs: bin });
    user.forgets();
});

after(() => {
    context.subscriptions.forEach((one) => one.dispose());
    fs.rmSync(place, { recursive: true, force: true });
});

extension.activate(context);

test('what package.json declares is there', () => {
    const declared = fake.declared.commands.map((one) => one.command).sort();
    assert.deepStrictEqual([...fake.commands.keys()].sort(), declared);
    const folder = path.join(__dirname, '../vscode');
    const files = [fake.declared.languages[0].configuration, fake.declared.grammars[0].path];
    for (const file of files) {
        JSON.parse(fs.readFileSync(path.join(folder, file), 'utf8'));
    }
});

test('columns in bytes are places in the text', () => {
    // text, line, column, end column, and what is marked, with its line from 0
    const table = [
        ['output y = x + z;', 1, 16, 17, 0, 'z'],
        ['input x:8;\noutput y = zz;\n', 2, 12, 14, 1, 'zz'],
        ['input x:8;\r\noutput y = zz;\r\n', 2, 12, 14, 1, 'zz'],
        ['\t\toutput y', 1, 3, 9, 0, 'output'],
        // (é has two bytes and one unit, the violin four bytes and two units)
        ['é é zz;', 1, 7, 9, 0, 'zz'],
        ['𝄞 zz;', 1, 6, 8, 0, 'zz'],
        ['output zé = x;', 1, 9, 11, 0, 'é'],
        // At the text's end the last character before it is marked.
        ['output y = x', 1, 13, 13, 0, 'x'],
        ['output y = x  \n\n', 3, 1, 1, 0, 'x'],
        ['', 1, 1, 1, 0, ''],
    ];
    for (const [text, line, column, endColumn, markedLine, marked] of table) {
        const { line: at, start, end } = findings.span(text, { line, column, end_column: endColumn });
        assert.deepStrictEqual([at, text.split(/\r?\n/)[at].slice(start, end)], [markedLine, marked], JSON.stringify(text));
    }
});

test('a refused program is marked at its token, and explained there', async () => {
    finds(3, finding(2, 16, 17, 'scope-2', '`z` is used before it is assigned.\nAssign it before.\nRule 2: so it is.'));
    const document = user.open(path.join(work, 'later.dil'), 'input x:8;\noutput y = x + z;\n');
    await untilShown(document);
    const [one, ...others] = shown(document);
    assert.deepStrictEqual(others, []);
    assert.strictEqual(one.message, '`z` is used before it is assigned.');
    assert.deepStrictEqual([one.severity, one.source, one.code], [0, 'pipelens', 'scope-2']);
    assert.deepStrictEqual(one.range, new fake.vscode.Range(1, 15, 1, 16));
    assert.deepStrictEqual(calls(), [`pipelens why ${document.uri.fsPath} --json`]);
    const [hover] = user.hovers(document, new fake.vscode.Position(1, 15));
    assert.deepStrictEqual(hover.contents.map((text) => text.value), ['Assign it before.\n\nRule 2: so it is.']);
    assert.deepStrictEqual(user.hovers(document, new fake.vscode.Position(0, 3)), []);
});

test('warnings are shown as such, and go when they are mended', async () => {
    const unneeded = finding(1, 1, 6, 'unneeded', 'No output needs `x`.', 'warning');
    finds(0, unneeded, finding(2, 1, 4, 'long-delay', 'So.\nTake x@1.', 'warning'));
    const document = user.open(path.join(work, 'a.dil'), 'input x:8;\nlet y = x;\n');
    await untilShown(document);
    assert.deepStrictEqual(shown(document).map((one) => [one.severity, one.code]), [[1, 'unneeded'], [1, 'long-delay']]);
    // (a finding of one line has nothing more to tell)
    assert.deepStrictEqual(user.hovers(document, new fake.vscode.Position(0, 1)), []);
    finds(0);
    user.types(document, 'input x:8;\noutput y = x;\n');
    await until(() => shown(document).length === 0, 'no warnings');
    assert.deepStrictEqual(user.hovers(document, new fake.vscode.Position(1, 1)), []);
    assert.deepStrictEqual(noted.warnings, []);
});

test('a text is looked at once it is left alone, by way of a temporary file', async () => {
    finds(0);
    const document = user.open(path.join(work, 'typed.dil'), 'input');
    for (const text of ['input ', 'input x', 'input x:', 'input x:8;']) {
        user.types(document, text);
        await pause(20);
    }
    await untilShown(document);
    const [call, ...others] = calls();
    assert.deepStrictEqual(others, []);
    assert.match(call, /^pipelens why .*\/tmp\/dil-\w+\/typed\.dil --json$/);
    assert.strictEqual(fs.readFileSync(path.join(place, 'text'), 'utf8'), 'input x:8;');
    assert.strictEqual(fs.readFileSync(document.uri.fsPath, 'utf8'), 'input');
    await until(() => fs.readdirSync(process.env.TMPDIR).length === 0, 'an empty temporary folder');
});

test('a text without a file is looked at, other documents are not', async () => {
    finds(0);
    user.open(path.join(work, 'notes.txt'), 'input');
    user.open(path.join(work, 'earlier.dil'), 'input', 'git');
    const document = user.open('Untitled-1', 'input x:8;', 'untitled');
    await untilShown(document);
    assert.strictEqual(calls().length, 1);
    assert.match(calls()[0], /Untitled-1 --json$/);
});

test('a call for an earlier text is ended, and its findings are not shown', async () => {
    standIn('pipelens', [
        'if grep -q slow "$2"; then sleep 20 & trap "kill $!; echo ended >>\\"$PLACE/calls\\"; exit 9" TERM; wait; fi',
        `echo '${finding(1, 1, 2, 'syntax', 'of the later text')}'; exit 3`,
    ].join('\n'));
    const document = user.open(path.join(work, 'a.dil'), 'slow');
    await until(() => calls().length === 1, 'the first call');
    await pause(100);
    user.types(document, 'fast');
    await untilShown(document);
    assert.deepStrictEqual(shown(document).map((one) => one.message), ['of the later text']);
    await until(() => calls().includes('ended'), 'the end of the first call');
    assert.deepStrictEqual(noted.warnings, []);
});

test('the fabric and the narrowing that are set are asked for', async () => {
    finds(0);
    user.sets({ programs: bin, fabric: 'wide', narrow: true });
    const document = user.open(path.join(work, 'a.dil'), 'input x:8;');
    await untilShown(document);
    assert.deepStrictEqual(calls(), [`pipelens why ${document.uri.fsPath} --json --fabric wide --narrow`]);
});

test('a closed document has no findings', async () => {
    finds(3, finding(1, 1, 2, 'syntax', 'So.'));
    const document = user.open(path.join(work, 'a.dil'), 'x');
    await untilShown(document);
    user.closes(document);
    assert.strictEqual(shown(document), undefined);
});

test('a missing pipelens is told once, and again once the settings change', async () => {
    const document = user.open(path.join(work, 'a.dil'), 'x');
    await until(() => noted.warnings.length > 0, 'a warning');
    for (const text of ['y', 'z']) {
        user.types(document, text);
        await pause(400);
    }
    const text =
        `There is no program pipelens in ${bin}, which the setting dil.programs names. ` +
        'Install it, or set dil.programs to its folder.';
    assert.deepStrictEqual(noted.warnings, [text]);
    user.presses = 'Open Settings';
    user.sets({ programs: bin });
    await until(() => noted.executed.length > 0, 'the settings');
    assert.deepStrictEqual(noted.executed, [['workbench.action.openSettings', 'dil.']]);
    assert.deepStrictEqual(noted.warnings, [text, text]);
});

test('the PATH is looked through where no folder is set', async () => {
    finds(0);
    const before = process.env.PATH;
    process.env.PATH = `/nowhere:${bin}:${before}`;
    user.sets({});
    await untilShown(user.open(path.join(work, 'a.dil'), 'x'));
    process.env.PATH = '/nowhere';
    user.open(path.join(work, 'b.dil'), 'x');
    await until(() => noted.warnings.length > 0, 'a warning');
    process.env.PATH = before;
    assert.match(noted.warnings[0], /^There is no program pipelens on the PATH\./);
});

test('the launcher of a repository is never called: where nothing is built, that is told', async () => {
    const built = path.join(bin, 'crates/pipelens/out');
    fs.mkdirSync(path.join(bin, 'launch'));
    fs.writeFileSync(path.join(bin, 'launch/build.sh'), '');
    standIn('pipelens', 'echo building >>"$PLACE/calls"');
    const document = user.open(path.join(work, 'a.dil'), 'x');
    await until(() => noted.warnings.length > 0, 'a warning');
    assert.deepStrictEqual(noted.warnings, [`pipelens is not built yet. Call ${bin}/pipelens once in a terminal.`]);
    fs.mkdirSync(built, { recursive: true });
    standIn('pipelens', 'echo built >>"$PLACE/calls"', built);
    user.types(document, 'y');
    await untilShown(document);
    assert.deepStrictEqual(calls().slice(1), ['built']);
});

test('a pipelens that answers otherwise is told with its own words', async () => {
    standIn('pipelens', 'echo "usage: pipelens TASK FILE .." >&2; exit 2');
    const document = user.open(path.join(work, 'a.dil'), 'x');
    await until(() => noted.warnings.length > 0, 'a warning');
    standIn('pipelens', 'kill -s SEGV $$');
    user.types(document, 'y');
    await until(() => noted.warnings.length > 1, 'a second warning');
    assert.deepStrictEqual(noted.warnings, [
        'pipelens gave no findings: usage: pipelens TASK FILE ..',
        'pipelens gave no findings: SIGSEGV',
    ]);
    assert.strictEqual(shown(document), undefined);
});

test('a run goes on in a terminal', async () => {
    finds(0);
    standIn('piperench', 'cat "$3"; exit 14');
    const document = user.open(path.join(work, 'it\'s "x".dil'), 'input x:8;');
    fs.writeFileSync(path.join(work, 'samples.txt'), '1\n2\n');
    fs.writeFileSync(path.join(work, 'more $HOME.txt'), '3\n');
    user.types(document, 'input x:9;');
    user.picks = 'samples.txt';
    await user.calls('dil.run');
    assert.deepStrictEqual(noted.picks, [['more $HOME.txt', 'samples.txt', 'Another file...']]);
    assert.strictEqual(fs.readFileSync(document.uri.fsPath, 'utf8'), 'input x:9;');
    const { shellPath, shellArgs } = noted.terminals[0];
    const { stdout } = childProcess.spawnSync(shellPath, shellArgs, { input: '\n' });
    assert.strictEqual(stdout.toString(), '1\n2\n\n[ended with status 14; the Enter key closes this]\n');
    const run = calls().find((call) => call.startsWith('piperench'));
    assert.strictEqual(run, `piperench run ${document.uri.fsPath} ${work}/samples.txt --stripes 16`);
    // The file that was chosen last comes first, and any other can be chosen.
    user.picks = 'Another file...';
    user.file = path.join(place, 'calls');
    await user.calls('dil.run');
    await user.calls('dil.run');
    assert.deepStrictEqual(noted.picks.slice(1), [
        ['samples.txt', 'more $HOME.txt', 'Another file...'],
        ['calls', 'more $HOME.txt', 'samples.txt', 'Another file...'],
    ]);
    assert.ok(noted.terminals[1].shellArgs.includes(user.file));
});

test('a run does not begin without a program, a saved text, samples, or piperench', async () => {
    finds(0);
    await user.calls('dil.run');
    assert.deepStrictEqual(noted.informations, ['Open a program, a file that ends in .dil, first.']);
    user.open('Untitled-1', 'input x:8;', 'untitled');
    user.savesNothing = true;
    await user.calls('dil.run');
    assert.deepStrictEqual(noted.picks, []);
    user.open(path.join(work, 'a.dil'), 'input x:8;');
    await user.calls('dil.run');
    assert.deepStrictEqual([noted.picks.length, noted.errors], [1, []]);
    user.picks = 'Another file...';
    user.file = path.join(work, 'a.dil');
    await user.calls('dil.run');
    assert.match(noted.errors[0], /^There is no program piperench in /);
    assert.deepStrictEqual(noted.terminals, []);
});

test('the cost is opened beside the program, and a refusal is told', async () => {
    standIn('pipelens', '[ "$1" != cost ] || echo "equations 2"');
    user.sets({ programs: bin, fabric: 'wide' });
    const document = user.open(path.join(work, 'a.dil'), 'input x:8;');
    await user.calls('dil.cost');
    assert.deepStrictEqual(noted.opened.map((one) => one.getText()), ['equations 2\n']);
    assert.ok(calls().includes(`pipelens cost ${document.uri.fsPath} --fabric wide`));
    standIn('pipelens', '[ "$1" != cost ] || { echo "scope: rule 2 item 1" >&2; exit 3; }');
    await user.calls('dil.cost');
    assert.deepStrictEqual([noted.errors, noted.opened.length], [['scope: rule 2 item 1'], 1]);
});

test('the waveform is made from the log of a run, and opened', async () => {
    standIn('piperench', 'echo "log of $3"');
    standIn('pipelens', '[ "$1" != wave ] || { echo "wave of"; cat "$2"; }');
    user.sets({ programs: bin, stripes: 3 });
    user.open(path.join(work, 'a.dil'), 'input x:8;');
    fs.writeFileSync(path.join(work, 'samples.txt'), '1\n');
    user.picks = 'samples.txt';
    await user.calls('dil.wave');
    const [[name, uri]] = noted.executed;
    assert.deepStrictEqual([name, uri.fsPath], ['vscode.open', path.join(place, 'storage/a.vcd')]);
    assert.strictEqual(fs.readFileSync(uri.fsPath, 'utf8'), `wave of\nlog of ${work}/samples.txt\n`);
    assert.deepStrictEqual(fs.readdirSync(path.join(place, 'storage')), ['a.vcd']);
    assert.ok(calls().includes(`piperench trace ${work}/a.dil ${work}/samples.txt --stripes 3`));
});

test('the waveform is opened by the viewer that is set', async () => {
    standIn('piperench', 'echo log');
    standIn('pipelens', '[ "$1" != wave ] || echo wave');
    standIn('viewer', '');
    user.sets({ programs: bin, waveViewer: path.join(bin, 'viewer') });
    user.open(path.join(work, 'a.dil'), 'input x:8;');
    user.picks = 'Another file...';
    user.file = path.join(work, 'a.dil');
    await user.calls('dil.wave');
    await until(() => calls().includes(`viewer ${place}/storage/a.vcd`), 'the viewer');
    user.sets({ programs: bin, waveViewer: path.join(bin, 'none') });
    await user.calls('dil.wave');
    await until(() => noted.errors.length > 0, 'an error');
    assert.match(noted.errors[0], /which dil.waveViewer names, cannot be started/);
    assert.deepStrictEqual(noted.executed, []);
});

test('a run that fails has no waveform', async () => {
    finds(0);
    standIn('piperench', 'echo "bad sample: line 1" >&2; exit 14');
    fs.rmSync(path.join(place, 'storage'), { recursive: true, force: true });
    user.open(path.join(work, 'a.dil'), 'input x:8;');
    user.picks = 'Another file...';
    user.file = path.join(work, 'a.dil');
    await user.calls('dil.wave');
    assert.deepStrictEqual([noted.errors, noted.executed], [['bad sample: line 1'], []]);
    assert.deepStrictEqual(fs.readdirSync(path.join(place, 'storage')), []);
});

test('a waveform is cancelled without a word', async () => {
    standIn('piperench', 'exec sleep 20');
    standIn('pipelens', '');
    user.open(path.join(work, 'a.dil'), 'input x:8;');
    Object.assign(user, { picks: 'Another file...', file: path.join(work, 'a.dil'), cancels: true });
    const begun = Date.now();
    await user.calls('dil.wave');
    assert.ok(Date.now() - begun < 10000);
    assert.deepStrictEqual([noted.errors, noted.executed], [[], []]);
    assert.ok(!calls().some((call) => call.startsWith('pipelens wave')));
});

const grammar = JSON.parse(fs.readFileSync(path.join(__dirname, '../vscode/dil.tmLanguage.json'), 'utf8'));

/** The words of a line with the first part of the name that the grammar gives each. */
function coloured(line) {
    const words = [];
    for (let at = 0; ; ) {
        const found = grammar.patterns
            .map((pattern) => ({ pattern, match: new RegExp(pattern.match, 'g') }))
            .map(({ pattern, match }) => ({ pattern, hit: ((match.lastIndex = at), match.exec(line)) }))
            .filter(({ hit }) => hit !== null)
            .sort((a, b) => a.hit.index - b.hit.index)[0];
        if (found === undefined) {
            return words;
        }
        words.push(`${(found.pattern.name ?? found.pattern.captures[1].name).split('.')[0]} ${found.hit[0]}`);
        at = found.hit.index + found.hit[0].length;
    }
}

test('words have their colours', () => {
    assert.deepStrictEqual(coloured('rec s:8 = 0x1F by cat(s@1, 7) << 2; // s'), [
        'storage rec', 'variable s', 'keyword :', 'constant 8', 'keyword =', 'constant 0x1F', 'keyword by', 'support cat',
        'punctuation (', 'variable s', 'keyword @', 'constant 1', 'punctuation ,', 'constant 7', 'punctuation )', 'keyword <<',
        'constant 2', 'punctuation ;', 'comment // s',
    ]);
    assert.deepStrictEqual(coloured('8x'), ['invalid 8x']);
});

const { PIPERENCH, PIPELENS } = process.env;
const real = { skip: !(PIPERENCH && PIPELENS) && 'no built programs' };
const help = PIPELENS ? childProcess.spawnSync(PIPELENS, ['--help']).stdout.toString() : '';
const realFindings = { skip: real.skip || (!help.includes('--json') && 'this pipelens has no --json') };

function takeReal() {
    fs.symlinkSync(PIPERENCH, path.join(bin, 'piperench'));
    fs.symlinkSync(PIPELENS, path.join(bin, 'pipelens'));
}

test('the real pipelens finds what is wrong', realFindings, async () => {
    takeReal();
    const document = user.open(path.join(work, 'a.dil'), 'input x:8; // é\noutput y = x + zz;\n');
    await untilShown(document);
    const [one, ...others] = shown(document);
    assert.deepStrictEqual([one.range, one.code, others], [new fake.vscode.Range(1, 15, 1, 17), 'scope-2', []]);
    assert.match(one.message, /`zz`/);
    user.types(document, 'input x:8;\noutput y = x');
    await until(() => shown(document)[0]?.code === 'syntax', 'an answer for the typed text');
    assert.deepStrictEqual(shown(document).map((other) => other.range), [new fake.vscode.Range(1, 11, 1, 12)]);
    user.types(document, 'input x:8;\noutput y = x;\n');
    await until(() => shown(document).length === 0, 'an accepted text');
    assert.deepStrictEqual(noted.warnings, []);
});

test('the real programs run, tell a cost and draw a waveform', real, async () => {
    takeReal();
    fs.writeFileSync(path.join(work, 'samples.txt'), '1\n2\n');
    user.open(path.join(work, 'a.dil'), 'input x:8;\noutput y:9 = x + x@1;\n');
    user.picks = 'samples.txt';
    await user.calls('dil.run');
    const { stdout } = childProcess.spawnSync(noted.terminals[0].shellPath, noted.terminals[0].shellArgs, { input: '\n' });
    assert.strictEqual(stdout.toString(), '1\n3\n\n[ended with status 0; the Enter key closes this]\n');
    await user.calls('dil.cost');
    assert.match(noted.opened[0].getText(), /^equations \d+\nunits \d+\n/);
    await user.calls('dil.wave');
    assert.match(fs.readFileSync(noted.executed[0][1].fsPath, 'utf8'), /^\$comment[^]*\$enddefinitions \$end\n#0\n/);
    assert.deepStrictEqual(noted.errors, []);
});
