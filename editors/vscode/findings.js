// What `pipelens why PROGRAM --json` writes, and where that stands in an editor's text.
'use strict';

/** The findings in what was written: one object of JSON in each line. Throws a SyntaxError where a line is none. */
function parse(written) {
    return written.split('\n').filter((line) => line !== '').map((line) => JSON.parse(line));
}

/** The number of UTF-16 units, which editors count in, of the first bytes of a line, which pipelens counts in. */
function unitsOfBytes(line, bytes) {
    return Buffer.from(line, 'utf8').subarray(0, bytes).toString('utf8').length;
}

/** The last character of the text before a position that is no blank; null where there is none. */
function lastBefore(lines, line, units) {
    for (let at = line; at >= 0; at--) {
        const before = (at === line ? lines[at].slice(0, units) : lines[at]).trimEnd();
        if (before !== '') {
            return { line: at, start: before.length - 1, end: before.length };
        }
    }
    return null;
}

/**
 * Where a finding stands in a text: the line from 0, and the UTF-16 units from `start` to before `end`. A finding at the text's
 * end has no token; it stands at the last character that is no blank, so that it can be seen.
 */
function span(text, finding) {
    const lines = text.split(/\r\n|\n|\r/);
    const line = Math.min(finding.line - 1, lines.length - 1);
    const start = unitsOfBytes(lines[line], finding.column - 1);
    const end = unitsOfBytes(lines[line], finding.end_column - 1);
    return (end <= start && lastBefore(lines, line, start)) || { line, start, end };
}

/** The first line of a message, which says what is wrong, and the lines behind it, which say what to do and why. */
function parts(message) {
    const [what, ...explanation] = message.split('\n');
    return { what, explanation };
}

module.exports = { parse, span, parts };
