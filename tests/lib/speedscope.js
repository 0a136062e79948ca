// What speedscope makes of a profile: node speedscope.js FOLDER FILE, where FOLDER has the page of speedscope. It prints
// a line for each event: its name, its total, and the frames with self weight and total weight.
const fs = require("fs"), path = require("path"), vm = require("vm");

const [folder, file] = process.argv.slice(2);
const text = front => fs.readFileSync(path.join(folder, fs.readdirSync(folder).find(
    it => it.startsWith(front) && it.endsWith(".js"))), "latin1");

// A browser as far as the page asks for one while it is read.
globalThis.window = globalThis.self = globalThis;
globalThis.location = { hash: "", href: "", protocol: "file:" };
globalThis.document = { currentScript: null, createElement: () => ({ style: {}, getContext: () => null }), getElementsByTagName: () => [] };

// The modules of the page, of which none is begun; then those that read profiles.
vm.runInThisContext(text("speedscope.").replace(/\{\},\[[^\]]*\], null\)\s*(\/\/.*\s*)?$/, "{},[], null)"));
vm.runInThisContext(text("import."));
const modules = globalThis.parcelRequire.modules;
const reader = Object.keys(modules).find(it => String(modules[it][0]).includes("exports.importProfileGroupFromText="));

// (it rounds what it has read before each call, so that the order of calls would change the weights a little)
Math.round = it => it;
globalThis.parcelRequire(reader).importProfileGroupFromText(path.basename(file), fs.readFileSync(file, "utf8")).then(group => {
    for (const profile of group.profiles) {
        const rows = [];
        profile.forEachFrame(it => rows.push([it.name, it.file ?? "", it.getSelfWeight(), it.getTotalWeight()]));
        process.stdout.write(`${JSON.stringify([profile.getName(), profile.getTotalWeight(), rows])}\n`);
    }
});
