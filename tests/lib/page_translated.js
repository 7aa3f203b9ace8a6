// Runs a module that is translated: node page_translated.js PAGE <CODE. CODE keeps the module `sample`, of which `main` is called; what it prints is printed.
'use strict';
const fs = require('fs'), vm = require('vm'), zlib = require('zlib');

const [, packed] = /<script id="worker" type="text\/plain">([^<]*)<\/script>/.exec(fs.readFileSync(process.argv[2], 'utf8'));
globalThis.onmessage = null;
vm.runInThisContext(zlib.inflateSync(Buffer.from(packed, 'base64')).toString());
vm.runInThisContext(fs.readFileSync(0, 'utf8'));
process.stdout.write(vm.runInThisContext("$python_runtime.printedBy(() => $python_runtime.importOf('sample').main())"));
