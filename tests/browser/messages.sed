# Turns the counter of crates/example_counter into one whose messages and roles show themselves by texts that would leave
# their places in a page if they could.
/^\/\/\/ A message of the counter/,/^}/s/, Debug//
/^\/\/\/ The role of a host/,/^}/s/, Debug//
$a\
\
impl std::fmt::Debug for Message {\
    fn fmt<W: std::fmt::Write>(&self, f: &mut std::fmt::Formatter<W>) -> std::fmt::Result {\
        match self {\
            Message::Add(n) => write!(f, "</script><script>document.title = 'owned'</script><img src=x onerror=alert({n})>"),\
            Message::Added(n) => write!(f, "<!-- \\" ' ` \\\\ &lt; \\u{2028}\\u{2029} ${{n}} --></title><h1>{n}"),\
        }\
    }\
}\
\
impl std::fmt::Debug for Role {\
    fn fmt<W: std::fmt::Write>(&self, f: &mut std::fmt::Formatter<W>) -> std::fmt::Result {\
        match self {\
            Role::Client { next } => write!(f, "</pre><script>alert({next})</script><!--"),\
            Role::Idle { count } => write!(f, "\\"></option></select><iframe src='file:///etc/passwd'>{count}"),\
            Role::Saving { n, .. } => write!(f, "javascript:alert({n})\\u{2028}\\u{2029}' onload=\\"x"),\
        }\
    }\
}
