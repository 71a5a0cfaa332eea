// Which node a request is for. nginx.conf says where it stands; haproxy.cfg has the same rules in words.
const NODES = 4;
const PATH = /^\/node([1-4])(\/|$)/;
const PUBLIC = /^\/in(\/|$)/;
// The expression by which an identifier is found: the block that has it, and the number of its node.
const BLOCK = '(?:Sequence|AckRequested)(?:\\s[^>]*)?>\\s*<(?:[^>:]*:)?Identifier[^>]*>\\s*';
const NUMBER = 'urn:uuid:([0-9a-f]{8})-([0-9a-f]{4})-8([0-9a-f]{3})-';
const IDENTIFIER = new RegExp(BLOCK + NUMBER);
const ASKS = /<(?:[^>:]*:)?(?:CreateSequence|MakeConnection)[\s>]/;
// How much of a body is looked at: so many characters, up to the first comment or CDATA section.
const LOOKED = 32768;

// The same node for the same address, as long as there are so many nodes.
function node_by(address) {
    let sum = 0;
    for (let i = 0; i < address.length; i++) {
        sum = (sum * 31 + address.charCodeAt(i)) % 65521;
    }
    return 1 + sum % NODES;
}

// The number of the node, and 0 where none is named.
function node_of(r) {
    const path = PATH.exec(r.uri);
    if (path) {
        return Number(path[1]);
    }
    if (!PUBLIC.test(r.uri)) {
        return 0;
    }
    const body = (r.requestText || '').slice(0, LOOKED).split('<!')[0];
    const named = IDENTIFIER.exec(body);
    if (named) {
        return parseInt(named[1] + named[2] + named[3], 16);
    }
    return ASKS.test(body) ? node_by(r.remoteAddress) : 0;
}

function route(r) {
    const node = node_of(r);
    if (node < 1 || node > NODES) {
        r.return(503);
        return;
    }
    r.internalRedirect('@node' + node);
}

export default { route };
