"""A piece of a script with many forms of the language, and the program that reads it so often: bench/tokens.sh and bench/parse.sh."""
import os

BENCH = os.environ["RPY_BENCH"]

BLOCK = '''def visit(node, depth):
    # Counts what stands below a node, and notes the longest title.
    total = 0
    if node.kind == "folder" and depth < 64:
        for child in node.values():
            total += visit(child, depth + 1)
        if total > node.limit:
            raise ValueError("too many items: " + str(total))
    elif node.kind != 'link':
        total = total + len(node.title) * 2 - 0x10
    else:
        rows = [node.title, node.owner, (depth, total, None)]
        table = {"name": node.name, "size": node.size, "rows": rows}
        while total % 7 != 0:
            total -= 1
    return total


result = visit(root.documents, 0)
print("result", result, root.title[1:-1], not result)
names = sorted(root.keys())
for name in names:
    item = root[name]
    item.count = item.count + 1
    item.title = 'Item ' + name + ' of "' + root.title + '"\\n'

'''
