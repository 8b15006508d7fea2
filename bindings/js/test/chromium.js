/* Controls headless Chromium by its protocol over a pipe, without a library and without a port. */
import { spawn } from "node:child_process";
import { mkdtempSync, rmSync } from "node:fs";
import { tmpdir } from "node:os";
import { join } from "node:path";

const FLAGS = ["--headless=new", "--no-sandbox", "--disable-gpu", "--disable-dev-shm-usage", "--no-first-run", "--remote-debugging-pipe"];

export class Chromium {
    #process;
    #folder = mkdtempSync(join(tmpdir(), "langtag-chromium-"));
    #waiting = new Map();
    #next = 1;
    #session;
    /** The requests of a page to the network, the errors in its console, and its exceptions. */
    requests = [];
    errors = [];

    constructor(program) {
        this.#process = spawn(program, [...FLAGS, `--user-data-dir=${this.#folder}`, "about:blank"], { stdio: ["ignore", "ignore", "ignore", "pipe", "pipe"] });
        let rest = "";
        this.#process.stdio[4].on("data", (data) => {
            const messages = (rest + data).split("\0");
            rest = messages.pop();
            for (const message of messages) this.#take(JSON.parse(message));
        });
    }

    static async start() {
        const browser = new Chromium(process.env.CHROMIUM);
        const { targetInfos } = await browser.#send("Target.getTargets");
        const { targetId } = targetInfos.find(({ type }) => type === "page");
        browser.#session = (await browser.#send("Target.attachToTarget", { targetId, flatten: true })).sessionId;
        for (const domain of ["Page", "Runtime", "Log", "Network", "Accessibility", "Performance"]) await browser.send(`${domain}.enable`);
        return browser;
    }

    #take({ id, result, error, method, params }) {
        if (id !== undefined) {
            const { resolve, reject } = this.#waiting.get(id);
            this.#waiting.delete(id);
            if (error) reject(new Error(error.message));
            else resolve(result);
        }
        if (method === "Network.requestWillBeSent") this.requests.push(params.request.url);
        if (method === "Log.entryAdded" && params.entry.level === "error") this.errors.push(params.entry.text);
        if (method === "Runtime.exceptionThrown") this.errors.push(params.exceptionDetails.exception?.description ?? params.exceptionDetails.text);
        if (method === "Page.loadEventFired") this.#waiting.get("load")?.resolve();
    }

    #send(method, params = {}, sessionId = undefined) {
        const id = this.#next++;
        this.#process.stdio[3].write(`${JSON.stringify({ id, method, params, sessionId })}\0`);
        return new Promise((resolve, reject) => this.#waiting.set(id, { resolve, reject }));
    }

    send(method, params) {
        return this.#send(method, params, this.#session);
    }

    async open(url) {
        const loaded = new Promise((resolve) => this.#waiting.set("load", { resolve }));
        await this.send("Page.navigate", { url });
        await loaded;
    }

    /** Returns the value of an expression, or of its promise. */
    async value(expression) {
        const { result, exceptionDetails } = await this.send("Runtime.evaluate", { expression, awaitPromise: true, returnByValue: true });
        if (exceptionDetails) throw new Error(exceptionDetails.exception?.description ?? exceptionDetails.text);
        return result.value;
    }

    /** Returns the processor time that the page took. It does not depend on what else runs on the machine. */
    async seconds() {
        const { metrics } = await this.send("Performance.getMetrics");
        return metrics.find(({ name }) => name === "ProcessTime").value;
    }

    async close() {
        const ended = new Promise((resolve) => this.#process.once("exit", resolve));
        await this.#send("Browser.close").catch(() => {});
        await ended;
        rmSync(this.#folder, { recursive: true, force: true, maxRetries: 5 });
    }
}

/** Why a test is not run that needs Chromium, which the variable CHROMIUM names, or false. */
export const skip = process.env.CHROMIUM === undefined && "CHROMIUM names no program";
