contrib/xml2pyx examples/refused.xml | crates/dtmx_pace/out/dtmx_pace --turns=b1000000 builtin=/dev/stdout
