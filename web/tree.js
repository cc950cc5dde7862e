'use strict';
// The tree of an expression, read from what the library says that it means.
//
// capkit_explain puts each operand of `and`, `or` and `not` in parentheses, unless it is one word. So the parentheses
// are the tree, and finding them isn't a second reading of the language. A chain of one operator is one node here, as
// (a or b) or c is a or b or c.

const JOINS = ['and', 'or'];

// A node of a text, by its words and the nodes of what it has in parentheses.
function nodeOf(text, parts) {
  const operands = parts.map((part) => (typeof part === 'string' ? { kind: 'test', text: part, operands: [] } : part));
  if (parts.length === 3 && JOINS.includes(parts[1])) {
    const [left, , right] = operands;
    // The left side of a chain of one operator gives its operands.
    return { kind: parts[1], text, operands: [...(left.kind === parts[1] ? left.operands : [left]), right] };
  }
  return parts.length === 2 && parts[0] === 'not' ? { kind: 'not', text, operands: [operands[1]] } : { kind: 'test', text, operands: [] };
}

// The tree of an explained expression; undefined of the empty one.
function treeOf(text) {
  // Where each open parenthesis is, and the parts after it.
  const opened = [[0, []]];
  for (const { 0: token, index } of text.matchAll(/[()]|[^()\s]+/g)) {
    if (token === '(') {
      opened.push([index + 1, []]);
      continue;
    }
    const [start, parts] = token === ')' ? opened.pop() : [];
    opened.at(-1)[1].push(token === ')' ? nodeOf(text.slice(start, index), parts) : token);
  }
  return text ? nodeOf(text, opened[0][1]) : undefined;
}

// At most how many nodes a tree has, before it is made; all its nodes, each before its operands, from the left.
const mostNodes = (text) => [...text.matchAll(/\b(?:and|or|not)\b/g)].length + 1;
const nodesOf = (root) => (root ? [root, ...root.operands.flatMap(nodesOf)] : []);

// Which nodes are evaluated on a packet, by the verdict of each: operands from the left, up to one that decides.
function evaluated(root, verdictOf) {
  const found = new Set(), waiting = [root];
  while (waiting.length) {
    const node = waiting.pop();
    found.add(node);
    for (const operand of node.operands) {
      waiting.push(operand);
      const verdict = verdictOf(operand);
      if (verdict === REJECTED || (node.kind === 'or' && verdict === KEPT) || (node.kind === 'and' && verdict === NOT_KEPT)) break;
    }
  }
  return found;
}
