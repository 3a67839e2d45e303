crates/dtmx_pace/out/dtmx_pace builtin=/dev/stdout < examples/flawed.pyx
