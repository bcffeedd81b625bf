function f() { throw new Error("x"); }
function g() { try { f(); } catch (error) { throw new Error("outer", { cause: error }); } }
try { g(); } catch (error) { console.error(error); }
