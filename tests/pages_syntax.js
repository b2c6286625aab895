// Reads the modules of the pages and their tests for tests/pages_static: `node pages_syntax.js
// PAGES TESTS`. It prints, as JSON, what each module exports and takes of others, how often its
// types say `any`, and what is against the rules of the code.
"use strict";

const { readdirSync, readFileSync } = require("node:fs");
const { dirname, join, relative, resolve } = require("node:path");

// (where Debian has it; the newer node of another maker does not look there)
const ts = require("/usr/share/nodejs/typescript");

const K = ts.SyntaxKind;
const WIDEST = 100;
/** What tsc says of names that nothing uses. */
const UNUSED = [6133, 6138, 6192, 6196, 6198, 6199, 6205];
const LOOSE = {
    [K.EqualsEqualsToken]: "===",
    [K.ExclamationEqualsToken]: "!=="
};

/** @typedef {{ from: string, names: string[], all: boolean, later: boolean }} Taken */
/** @typedef {{ rule: string, line: number, text: string }} Fault */
/** @typedef {{ exports: string[], taken: Taken[], any: number, faults: Fault[] }} Read */

/** @param {string} folder @returns {string[]} */
function scriptsIn(folder) {
    return readdirSync(folder, { withFileTypes: true }).flatMap((it) => {
        const path = join(folder, it.name);
        if (it.isDirectory()) return scriptsIn(path);
        return /\.(js|mjs|ts)$/.test(it.name) ? [path] : [];
    });
}

/** A file that a program writes has the program's layout. */
const isWritten = (text) => /^\/\/ [^]{0,200}?written by python3/.test(text);

/** Each node, those of JSDoc too, once. */
function walk(source, act) {
    const seen = new Set();
    const visit = (node) => {
        if (seen.has(node)) return;
        seen.add(node);
        act(node);
        for (const it of node.jsDoc ?? []) visit(it);
        ts.forEachChild(node, visit);
    };
    visit(source);
    for (const it of source.endOfFileToken.jsDoc ?? []) visit(it);
}

const isAny = (node, source) =>
    [K.AnyKeyword, K.JSDocAllType, K.JSDocUnknownType].includes(node.kind) ||
    node.kind === K.TypeReference && ["Object", "Function"].includes(node.typeName.getText(source));

function namesBoundBy(name) {
    if (ts.isIdentifier(name)) return [name.text];
    return name.elements.flatMap((it) => (ts.isOmittedExpression(it) ? [] : namesBoundBy(it.name)));
}

function exportsOf(source) {
    return source.statements.flatMap((it) => {
        if (ts.isExportDeclaration(it))
            return (it.exportClause?.elements ?? []).map(({ name }) => name.text);
        if (!it.modifiers?.some(({ kind }) => kind === K.ExportKeyword)) return [];
        if (ts.isVariableStatement(it))
            return it.declarationList.declarations.flatMap(({ name }) => namesBoundBy(name));
        return ts.isFunctionDeclaration(it) || ts.isClassDeclaration(it) ? [it.name.text] : [];
    });
}

/** What a module takes of others. Of one that it loads later it takes each name that it has. */
function takenBy(source, path) {
    const taken = [], stars = new Map(), said = new Set();
    walk(source, (node) => {
        const specifier = node.moduleSpecifier?.text ?? "";
        const from = specifier.startsWith(".") && resolve(dirname(path), specifier);
        if (ts.isImportDeclaration(node) && from) {
            const bound = node.importClause?.namedBindings;
            const names = bound && ts.isNamedImports(bound) ? bound.elements : [];
            const one = {
                from,
                names: names.map((it) => (it.propertyName ?? it.name).text),
                all: false,
                later: false
            };
            if (bound && ts.isNamespaceImport(bound)) stars.set(bound.name.text, one);
            taken.push(one);
        } else if (ts.isExportDeclaration(node) && from) {
            const names = node.exportClause.elements.map((it) => (it.propertyName ?? it.name).text);
            taken.push({ from, names, all: false, later: false });
        } else if (ts.isCallExpression(node) && node.expression.kind === K.ImportKeyword) {
            const [name] = node.arguments;
            const later = ts.isStringLiteralLike(name) && resolve(dirname(path), name.text);
            if (later) taken.push({ from: later, names: [], all: false, later: true });
        } else if (ts.isIdentifier(node)) said.add(node.text);
    });
    walk(source, (node) => {
        if (!ts.isIdentifier(node) || !stars.has(node.text)) return;
        const { parent } = node, one = stars.get(node.text);
        if (ts.isNamespaceImport(parent)) return;
        if (ts.isPropertyAccessExpression(parent) && parent.expression === node)
            one.names.push(parent.name.text);
        else if (!ts.isPropertyAccessExpression(parent)) one.all = true;
    });
    for (const it of taken) if (it.later) it.names = [...said];
    return taken;
}

/** Lines that are too wide. Texts may be: where a line is one literal, and in the files of words.
 */
function widthFaults(source, isOfWords) {
    const faults = [];
    source.text.split("\n").forEach((line, at) => {
        const isLiteral =
            /^\s*("[^"]*"|`[^`]*`|\/.*\/[a-z]*)[,;)]*$/.test(line) ||
            isOfWords && /["`]/.test(line);
        if (line.length > WIDEST && !isLiteral)
            faults.push({ rule: "width", line: at + 1, text: `has ${line.length} columns` });
        if (/[ \t]$|^ *\t/.test(line))
            faults.push({ rule: "layout", line: at + 1, text: "ends in space, or has a tab" });
    });
    return faults;
}

const isDrawn = ([tag, attributes]) =>
    ts.isStringLiteral(tag) && ts.isObjectLiteralExpression(attributes);

function codeFaults(source) {
    const faults = [];
    const lineOf = (position) => source.getLineAndCharacterOfPosition(position).line;
    const add = (node, rule, text) =>
        faults.push({ rule, line: lineOf(node.getStart(source)) + 1, text });
    const eachOnALine = (nodes, before, text) => {
        nodes.forEach((it, at) => {
            const ends = at ? nodes[at - 1].end : before;
            if (lineOf(it.getStart(source)) === lineOf(ends)) add(it, "layout", text);
        });
    };
    walk(source, (node) => {
        if (ts.isBinaryExpression(node) && LOOSE[node.operatorToken.kind])
            add(node, "equality", `compares loosely: ${LOOSE[node.operatorToken.kind]} is meant`);
        if (ts.isBlock(node) || ts.isSourceFile(node))
            eachOnALine(node.statements.slice(1), node.statements[0]?.end, "has two statements");
        if (!ts.isCallExpression(node) || node.arguments.length < 3 || !isDrawn(node.arguments))
            return;
        const [, attributes, ...children] = node.arguments;
        if (lineOf(node.expression.end) !== lineOf(node.end))
            eachOnALine(children, attributes.end, "draws two parts");
    });
    return faults;
}

/** Names that nothing uses, of the tests alone: tsc reads the pages with all their types. */
function unusedIn(files) {
    const options = {
        allowJs: true,
        checkJs: true,
        noEmit: true,
        noUnusedLocals: true,
        noUnusedParameters: true,
        target: ts.ScriptTarget.ES2022,
        module: ts.ModuleKind.ES2022,
        types: []
    };
    const program = ts.createProgram(files, options);
    return files.flatMap((path) =>
        program
            .getSemanticDiagnostics(program.getSourceFile(path))
            .filter(({ code }) => UNUSED.includes(code))
            .map(({ file, start, messageText }) => ({
                path,
                rule: "unused",
                line: file.getLineAndCharacterOfPosition(start).line + 1,
                text: ts.flattenDiagnosticMessageText(messageText, " ")
            }))
    );
}

/** @param {string} path @param {string} pages @returns {Read} */
function read(path, pages) {
    const text = readFileSync(path, "utf8");
    const kind = path.endsWith(".ts") ? ts.ScriptKind.TS : ts.ScriptKind.JS;
    const source = ts.createSourceFile(path, text, ts.ScriptTarget.ES2022, true, kind);
    let any = 0;
    walk(source, (node) => (any += isAny(node, source) ? 1 : 0));
    const isOfWords = relative(pages, path).startsWith("words/");
    return {
        exports: exportsOf(source),
        taken: takenBy(source, path),
        any,
        faults: isWritten(text) ? [] : [...widthFaults(source, isOfWords), ...codeFaults(source)]
    };
}

const [pages, tests] = process.argv.slice(2).map((it) => resolve(it));
const ofTests = scriptsIn(tests), files = [...scriptsIn(pages), ...ofTests, __filename];
const found = Object.fromEntries(files.map((path) => [path, read(path, pages)]));
for (const { path, ...fault } of unusedIn(ofTests)) found[path].faults.push(fault);
process.stdout.write(JSON.stringify(found));
