// What the user set.
'use strict';

const vscode = require('vscode');

function value(name, uri) {
    return vscode.workspace.getConfiguration('dil', uri).get(name);
}

/** The folder of the programs; an empty text leaves it to the PATH. */
function folder() {
    return value('programs') || '';
}

/** The options of the fabric that a program is compiled for, for both programs. */
function fabric(uri) {
    return [...(value('fabric', uri) === 'wide' ? ['--fabric', 'wide'] : []), ...(value('narrow', uri) ? ['--narrow'] : [])];
}

/** The options of a run. */
function run(uri) {
    return [...fabric(uri), '--stripes', String(value('stripes', uri) || 16)];
}

/** The program that opens waveforms; an empty text leaves it to the editor. */
function waveViewer() {
    return value('waveViewer') || '';
}

module.exports = { folder, fabric, run, waveViewer };
