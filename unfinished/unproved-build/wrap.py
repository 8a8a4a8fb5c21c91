s = open('mod.ll').read()
s = s.replace('define i32 @main()', 'define internal i32 @unused_main()')
S, R = 'slice', 'same'
fns = {
 'sorbrudder_parse': ('sorbrudder::sorbrudder_parse', [S]*4 + ['i64','i16','i64','i64','i32']),
 'sorbrudder_parse_rules': ('sorbrudder::ruled::sorbrudder_parse_rules', [S]*5 + ['i64','i16','i64','i64','i32']),
 'sorbrudder_write': ('sorbrudder::sorbrudder_write', [S]*2),
 'sorbrudder_export': ('sorbrudder::sorbrudder_export', [S]*2),
 'sorbrudder_import': ('sorbrudder::sorbrudder_import', [S]*2),
 'sorbrudder_open': ('sorbrudder::holding::sorbrudder_open', [S,S,'ptr','ptr','ptr',S,S,S,'i16','i32']),
 'sorbrudder_ask': ('sorbrudder::holding::sorbrudder_ask', ['i64','i16',S,'i64','i64',S,S,S,S,'i32']),
 'sorbrudder_commit': ('sorbrudder::holding::sorbrudder_commit', ['ptr','i16','ptr','i32',S,'i64','i64',S,S,S,S,'i32']),
 'sorbrudder_adopt': ('sorbrudder::holding::sorbrudder_adopt', ['ptr','ptr','i16']),
}
out = []
for name, (inner, args) in fns.items():
    params, body, call = [], [], []
    for i, a in enumerate(args):
        if a == S:
            params += [f'ptr %p{i}', f'i64 %n{i}']
            body += [f'  %s{i} = alloca [16 x i8], align 8', f'  store ptr %p{i}, ptr %s{i}, align 8', f'  %l{i} = getelementptr i8, ptr %s{i}, i64 8', f'  store i64 %n{i}, ptr %l{i}, align 8']
            call.append(f'ptr noundef %s{i}')
        else:
            params.append(f'{a} %p{i}'); call.append(f'{a} noundef %p{i}')
    out.append(f'define noundef i64 @{name}({", ".join(params)}) #0 {{\nstart:\n' + '\n'.join(body) + f'\n  %r = call noundef i64 @"{inner}"({", ".join(call)})\n  ret i64 %r\n}}\n')
open('lib.ll', 'w').write(s + '\n' + '\n'.join(out))
