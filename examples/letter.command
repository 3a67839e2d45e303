contrib/xml2pyx examples/letter.xml | crates/dtmx_pace/out/dtmx_pace --turns=b1000000 builtin=/dev/stdout
