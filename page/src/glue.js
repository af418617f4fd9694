// Bytes into the module, bytes out of it, and nothing else. Runs in the worker.
import {MEMORY, REFUSED, SMALL, TRAPPED} from './text.js';

export class Glue {
    constructor(module) {
        this.module = module;
    }

    start() {
        /** @type {any} */
        this.instance = new WebAssembly.Instance(this.module, {}).exports;
        this.room = this.roomLength = 0n;
    }

    // Whether the module has a function of this name.
    has(name) {
        if (!this.instance) this.start();
        return name in this.instance;
    }

    // The address of a copy of these bytes; 0 where there is no memory.
    put(bytes) {
        const at = this.instance.page_room(BigInt(Math.max(bytes.length, 1)));
        if (at) new Uint8Array(this.instance.memory.buffer, Number(at), bytes.length).set(bytes);
        return at;
    }

    enlarge(length) {
        this.instance.page_free(this.room);
        this.room = this.instance.page_room(length);
        this.roomLength = this.room ? length : 0n;
        return this.room;
    }

    // What a function of the module says of these texts, and numbers behind them. After a trap the instance is given
    // up; the next call begins with a new one.
    answer(name, texts, numbers = []) {
        const letters = new TextEncoder(), encoded = text => typeof text === 'string' ? letters.encode(text) : text;
        try {
            if (!this.instance) this.start();
            return this.ask(name, texts.map(encoded), numbers.map(BigInt));
        } catch (trap) {
            this.instance = null;
            return {code: TRAPPED, bytes: letters.encode(String(trap))};
        }
    }

    ask(name, texts, numbers) {
        const {instance} = this, [taken, ...places] = [new Uint8Array(16), ...texts].map(text => this.put(text));
        const nothing = {code: MEMORY, bytes: new Uint8Array()};
        if (!taken || !places.every(Boolean) || !(this.room || this.enlarge(65536n))) return nothing;
        const words = [...places.flatMap((place, k) => [place, BigInt(texts[k].length)]), ...numbers];
        for (;;) {
            instance[name](taken, ...words, this.room, this.roomLength);
            const told = new DataView(instance.memory.buffer), code = told.getUint8(Number(taken));
            const length = told.getBigUint64(Number(taken) + 8, true);
            if (code === SMALL && this.enlarge(length)) continue;
            [taken, ...places].forEach(place => instance.page_free(place));
            if (code > REFUSED) return {...nothing, code: code === SMALL ? MEMORY : code};
            return {code, bytes: new Uint8Array(instance.memory.buffer, Number(this.room), Number(length)).slice()};
        }
    }
}
