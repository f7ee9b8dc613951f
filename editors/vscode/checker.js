// The findings of pipelens in open programs, while one types.
'use strict';

const fs = require('fs');
const os = require('os');
const path = require('path');
const vscode = require('vscode');
const findings = require('./findings');
const programs = require('./programs');
const settings = require('./settings');

/** How long a text is left alone before it is looked at, in milliseconds. */
const PAUSE = 300;

/** The schemes of documents to look at: files, and texts that have none yet. Others show earlier states of a file. */
const SCHEMES = ['file', 'untitled'];

/** The statuses of `pipelens why` with which its findings are complete: accepted, and refused in one way or another. */
const ANSWERED = [0, 3, 4, 5, 6];

class Checker {
    /** `tell` is called with what keeps pipelens from being called. */
    constructor(tell) {
        this.tell = tell;
        this.collection = vscode.languages.createDiagnosticCollection('pipelens');
        this.timers = new Map();
        this.calls = new Map();
        this.explanations = new Map();
    }

    /** Looks at a document once it was left alone for a moment. */
    later(document) {
        if (document.languageId === 'dil' && SCHEMES.includes(document.uri.scheme)) {
            const key = document.uri.toString();
            clearTimeout(this.timers.get(key));
            this.timers.set(key, setTimeout(() => this.check(document), PAUSE));
        }
    }

    /** Looks at a document now. A call for an earlier text of it is ended. */
    async check(document) {
        const key = document.uri.toString();
        this.stop(key);
        const call = {};
        this.calls.set(key, call);
        try {
            const written = await why(document, call);
            if (this.calls.get(key) === call) {
                this.show(document, findings.parse(written));
            }
        } catch (error) {
            if (this.calls.get(key) === call) {
                this.collection.delete(document.uri);
                this.explanations.delete(key);
                this.tell(error.message);
            }
        } finally {
            if (this.calls.get(key) === call) {
                this.calls.delete(key);
            }
        }
    }

    show(document, found) {
        const text = document.getText();
        const shown = found.map((finding) => diagnostic(text, finding));
        this.collection.set(document.uri, shown.map((one) => one.diagnostic));
        this.explanations.set(document.uri.toString(), shown);
    }

    /** What to do about the finding at a position, and by which rule. What is wrong there is shown by the editor itself. */
    hover(document, position) {
        const shown = this.explanations.get(document.uri.toString()) ?? [];
        const here = shown.filter((one) => one.explanation.length > 0 && one.diagnostic.range.contains(position));
        if (here.length === 0) {
            return undefined;
        }
        const texts = here.map((one) => new vscode.MarkdownString(one.explanation.join('\n\n')));
        return new vscode.Hover(texts, here[0].diagnostic.range);
    }

    /** Ends the call for a document, and a wait for one. */
    stop(key) {
        clearTimeout(this.timers.get(key));
        this.timers.delete(key);
        this.calls.get(key)?.child?.kill();
        this.calls.delete(key);
    }

    /** Forgets a document that was closed. */
    forget(document) {
        const key = document.uri.toString();
        this.stop(key);
        this.explanations.delete(key);
        this.collection.delete(document.uri);
    }

    dispose() {
        for (const key of [...this.timers.keys(), ...this.calls.keys()]) {
            this.stop(key);
        }
        this.collection.dispose();
    }
}

/** What `pipelens why --json` writes about a document; its process stands in `call.child` while it runs. */
async function why(document, call) {
    const lens = programs.find('pipelens', settings.folder());
    const saved = document.uri.scheme === 'file' && !document.isDirty;
    const folder = saved ? undefined : await fs.promises.mkdtemp(path.join(os.tmpdir(), 'dil-'));
    try {
        let file = document.uri.fsPath;
        if (!saved) {
            file = path.join(folder, path.basename(file) || 'program.dil');
            await fs.promises.writeFile(file, document.getText());
        }
        call.child = programs.start(lens, ['why', file, '--json', ...settings.fabric(document.uri)]);
        const answer = await programs.ended(call.child);
        if (!ANSWERED.includes(answer.status)) {
            const reason = answer.err.split('\n')[0] || answer.signal || answer.status;
            throw new programs.Unavailable(`pipelens gave no findings: ${reason}`);
        }
        return answer.out;
    } finally {
        if (folder !== undefined) {
            await fs.promises.rm(folder, { recursive: true, force: true });
        }
    }
}

function diagnostic(text, finding) {
    const place = findings.span(text, finding);
    const { what, explanation } = findings.parts(finding.message);
    const severity = finding.severity === 'warning' ? vscode.DiagnosticSeverity.Warning : vscode.DiagnosticSeverity.Error;
    const shown = new vscode.Diagnostic(new vscode.Range(place.line, place.start, place.line, place.end), what, severity);
    shown.source = 'pipelens';
    shown.code = finding.code;
    return { diagnostic: shown, explanation };
}

module.exports = { Checker };
