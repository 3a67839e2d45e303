crates/dtmx_pace/out/dtmx_pace --turns=b3,r0,b2,r1 builtin=/dev/stdout builtin=/dev/null < examples/turns.pyx
