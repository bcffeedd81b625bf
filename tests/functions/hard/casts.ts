// Where the parser's name is the worse one, unless what follows the function is left aside.
interface T { (): void }
let X: T;
X = function () { work(); } as T;
const Y = (() => { work(); }) as T;
const Z = function () { work(); } as unknown as T;
let W = function () { work(); }!;
export { X, Y, Z, W };
