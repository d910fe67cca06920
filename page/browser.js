// Headless Chromium over a pipe: a page of it is opened, asked, and photographed. Needs nothing but node.
const { spawn } = require("child_process");
const fs = require("fs");
const os = require("os");
const path = require("path");

async function browse(program, work) {
    const home = fs.mkdtempSync(path.join(os.tmpdir(), "page-"));
    const words = ["--headless=new", "--remote-debugging-pipe", "--no-sandbox", "--disable-gpu", "--no-first-run", "--hide-scrollbars",
        "--disable-background-networking", "--disable-dev-shm-usage", `--user-data-dir=${home}`, "about:blank"];
    const child = spawn(program, words, { stdio: ["ignore", "ignore", "ignore", "pipe", "pipe"] });
    const [to, from] = [child.stdio[3], child.stdio[4]];
    const waiting = new Map();
    const heard = [];
    let number = 0;
    let held = "";
    from.setEncoding("utf8");
    from.on("data", (text) => {
        const parts = (held + text).split("\0");
        held = parts.pop();
        for (const part of parts) {
            const message = JSON.parse(part);
            if (message.id && waiting.has(message.id)) {
                const { resolve, reject } = waiting.get(message.id);
                waiting.delete(message.id);
                if (message.error) reject(new Error(message.error.message));
                else resolve(message.result);
            } else heard.push(message);
        }
    });
    const tell = (method, params = {}, sessionId = undefined) => new Promise((resolve, reject) => {
        const id = ++number;
        const late = setTimeout(() => reject(new Error(`${method}: no answer in two minutes`)), 120000);
        late.unref();
        waiting.set(id, { resolve, reject });
        to.write(JSON.stringify({ id, method, params, sessionId }) + "\0");
    });
    const gone = new Promise((resolve) => child.on("exit", resolve));
    child.on("exit", () => {
        for (const { reject } of waiting.values()) reject(new Error("the browser ended"));
    });

    // a page: go to an address, ask for the value of an expression, take a picture
    async function page(width = 1200, height = 900) {
        const { targetId } = await tell("Target.createTarget", { url: "about:blank" });
        const { sessionId } = await tell("Target.attachToTarget", { targetId, flatten: true });
        const call = (method, params) => tell(method, params, sessionId);
        await call("Page.enable");
        await call("Runtime.enable");
        await call("Network.enable");
        await call("Log.enable");
        const self = {
            call,
            async close() {
                await tell("Target.closeTarget", { targetId });
            },
            async front() {
                await call("Page.bringToFront");
            },
            async size(w, h, phone = false) {
                const deviceScaleFactor = phone ? 2 : 1;
                await call("Emulation.setDeviceMetricsOverride", { width: w, height: h, deviceScaleFactor, mobile: phone });
            },
            async media(list) {
                await call("Emulation.setEmulatedMedia", { features: list });
            },
            async go(url) {
                await call("Page.navigate", { url: "about:blank" });
                await call("Page.navigate", { url });
                for (let i = 0; i < 600; i++) {
                    if (await self.ask("document.body !== null && document.body.dataset.updated !== undefined").catch(() => false)) return;
                    await new Promise((resolve) => setTimeout(resolve, 50));
                }
                throw new Error("the page does not come up: " + (await self.ask("document.body.innerText")));
            },
            async ask(expression) {
                const words = { expression, awaitPromise: true, returnByValue: true };
                const { result, exceptionDetails: wrong } = await call("Runtime.evaluate", words);
                if (wrong) throw new Error(wrong.exception ? wrong.exception.description : wrong.text);
                return result.value;
            },
            async shot(file) {
                const { data } = await call("Page.captureScreenshot", { format: "png", captureBeyondViewport: true });
                fs.writeFileSync(path.join(work, file), Buffer.from(data, "base64"));
            },
            async printed(file) {
                const { data } = await call("Page.printToPDF", { preferCSSPageSize: true, printBackground: true });
                fs.writeFileSync(path.join(work, file), Buffer.from(data, "base64"));
                return Buffer.from(data, "base64");
            },
        };
        await self.size(width, height);
        return self;
    }

    async function end() {
        await tell("Browser.close").catch(() => {});
        await Promise.race([gone, new Promise((resolve) => setTimeout(resolve, 5000))]);
        if (child.exitCode === null) child.kill("SIGKILL");
        fs.rmSync(home, { recursive: true, force: true, maxRetries: 5 });
    }
    return { page, end, heard };
}

module.exports = { browse };
