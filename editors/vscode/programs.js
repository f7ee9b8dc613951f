// Where piperench and pipelens are, and calls of them.
'use strict';

const childProcess = require('child_process');
const fs = require('fs');
const path = require('path');

/** A program that cannot be called; the message says why, and what to do. */
class Unavailable extends Error {}

// A program's syntax tree can be tens of thousands of levels deep, and the programs go down it by calling themselves.
const WITH_DEEP_STACK = 'ulimit -S -s 1048576 2>/dev/null || ulimit -S -s "$(ulimit -H -s)"; exec "$0" "$@"';

function isExecutable(file) {
    try {
        fs.accessSync(file, fs.constants.X_OK);
        return fs.statSync(file).isFile();
    } catch {
        return false;
    }
}

/** The built program that a launcher of the repository starts; null for another file. A launcher would first prove and build. */
function builtBy(file, name) {
    const root = path.dirname(fs.realpathSync(file));
    if (!fs.existsSync(path.join(root, 'launch', 'build.sh'))) {
        return null;
    }
    return path.join(root, 'crates', name, 'out', name);
}

/**
 * The path of the program `name`, in `folder` if that is no empty text, and else along the PATH. Throws Unavailable where the
 * program is missing, or where it is the launcher of a repository in which nothing is built yet.
 */
function find(name, folder) {
    const folders = folder ? [folder] : (process.env.PATH || '').split(path.delimiter).filter((one) => one !== '');
    const file = folders.map((one) => path.join(one, name)).find(isExecutable);
    if (file === undefined) {
        const where = folder ? `in ${folder}, which the setting dil.programs names` : 'on the PATH';
        throw new Unavailable(`There is no program ${name} ${where}. Install it, or set dil.programs to its folder.`);
    }
    const built = builtBy(file, name);
    if (built !== null && !isExecutable(built)) {
        throw new Unavailable(`${name} is not built yet. Call ${file} once in a terminal.`);
    }
    return built ?? file;
}

/** The words that start a program with room on its stack. */
function command(program, words) {
    return ['/bin/sh', ['-c', WITH_DEEP_STACK, program, ...words]];
}

/** Starts a program. Its results go into the file `into` where one is named. */
function start(program, words, into) {
    const output = into === undefined ? 'pipe' : fs.openSync(into, 'w');
    const child = childProcess.spawn(...command(program, words), { stdio: ['ignore', output, 'pipe'] });
    if (into !== undefined) {
        fs.closeSync(output);
    }
    return child;
}

/** How a started program ended: its status, or the name of the signal that ended it, and what it wrote. */
function ended(child) {
    return new Promise((resolve, reject) => {
        const written = { out: [], err: [] };
        child.stdout?.on('data', (piece) => written.out.push(piece));
        child.stderr.on('data', (piece) => written.err.push(piece));
        child.on('error', reject);
        child.on('close', (status, signal) => {
            resolve({ status, signal, out: Buffer.concat(written.out).toString(), err: Buffer.concat(written.err).toString() });
        });
    });
}

module.exports = { Unavailable, find, command, start, ended };
