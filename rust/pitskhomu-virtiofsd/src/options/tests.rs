//! Which options are taken and refused, and what --help says of them.
use super::*;
use clap::CommandFactory;

fn parsed(words: &str) -> Result<Options, clap::Error> {
    Options::try_parse_from(words.split_whitespace()).and_then(Options::with_compat)
}

fn options(words: &str) -> Result<Options, String> {
    parsed(&format!("daemon --socket-path=/s --shared-dir=/d {words}")).map_err(|e| e.to_string())
}

#[test]
fn lists_and_labels_imply_xattr_and_what_init_agrees_on() {
    let (acl, label) = (1 << 20 | 1 << 6 | 1 << 29, 1 << 32);
    for (words, agreed) in [
        ("--posix-acl", acl),
        ("--security-label", label),
        ("-o posix_acl,security_label", acl | label),
        ("-o posix_acl,no_posix_acl,security_label", label),
    ] {
        let options = options(words).expect(words);
        assert!(options.has_xattr(), "{words}");
        assert_eq!(options.always_agreed().bits(), agreed, "{words}");
    }
    assert_eq!(options("--xattr").expect("options").always_agreed().bits(), 0);
    assert!(!options("").expect("options").has_xattr());
}

#[test]
fn threads_poll_unless_they_must_not() {
    assert_eq!(options("").expect("options").poll_max_us, 32);
    for (words, most) in [("--poll-max-us=0", Ok(0)), ("--poll-max-us 10000", Ok(10_000))] {
        assert_eq!(options(words).map(|options| options.poll_max_us), most);
    }
    assert!(options("--poll-max-us=10001").is_err());
}

#[test]
fn the_last_of_two_opposites_holds() {
    let opposite = |words| options(words).expect(words).no_announce_submounts;
    assert!(!opposite("") && !opposite("--no-announce-submounts --announce-submounts"));
    assert!(opposite("--announce-submounts --no-announce-submounts"));
    assert!(matches!(
        options("--cache=auto --cache=never").expect("options").cache,
        CachePolicy::Never
    ));
}

#[test]
fn virtiofsds_words_are_taken() {
    let all = "--sandbox=chroot --seccomp=log --cache=never --allow-mmap \
               --xattrmap=:map::user.virtiofs.: --killpriv-v2 --announce-submounts \
               --inode-file-handles=mandatory --rlimit-nofile=0 --modcaps=+sys_admin:-chown \
               --translate-uid=map:0:1000:1 --migration-mode=file-handles --log-level=debug \
               --syslog --tag=shared --thread-pool-size=64";
    assert!(options(all).is_ok());
    let old = parsed("daemon --socket /s --shared-dir /d -f -d --inode-file-handles=fallback")
        .expect("options");
    assert_eq!((old.messages(), old.socket.clone()), (log::LevelFilter::Debug, Some("/s".into())));
    let warned = old.warnings();
    assert!(warned.len() == 4 && warned.iter().all(|warning| warning.contains("eprecated")));
    assert!(options(all).expect("options").warnings().is_empty());
}

/// Wrong words, and how virtiofsd's message for them begins.
const WRONG: &[(&str, &str)] = &[
    ("--cache=some", "invalid value 'some' for '--cache <CACHE>': invalid cache policy"),
    ("--sandbox=x", "invalid value 'x' for '--sandbox <SANDBOX>': Unknown sandbox mode"),
    ("--seccomp=x", "invalid value 'x' for '--seccomp <SECCOMP>': Matching variant not found"),
    (
        "--inode-file-handles=x",
        "invalid value 'x' for '--inode-file-handles=<INODE_FILE_HANDLES>': invalid inode \
         file handles mode",
    ),
    (
        "--inode-file-handles",
        "equal sign is needed when assigning values to \
         '--inode-file-handles=<INODE_FILE_HANDLES>'",
    ),
    (
        "--tag=",
        "invalid value '' for '--tag <TAG>': The tag may not be empty or longer than 36 \
         bytes (encoded as UTF-8).",
    ),
    ("--log-level=x", "invalid value 'x' for '--log-level <LOG_LEVEL>'"),
    ("--fd=3", "the argument '--socket-path <SOCKET_PATH>' cannot be used with '--fd <FD>'"),
    ("--no-such-option", "unexpected argument '--no-such-option' found"),
    ("-o cache=some", "Invalid compat value 'some' for '-o cache'"),
    ("-o cache=never", "Invalid compat value 'never' for '-o cache'"),
    ("-o loglevel=trace", "Invalid compat value 'trace' for '-o loglevel'"),
    ("-o sandbox=none", "Invalid compat value 'none' for '-o sandbox'"),
    ("-o xattrmap=x", "Invalid compat value 'x' for '-o xattrmap'"),
    ("-o flock", "Invalid compat argument '-o flock'"),
    ("-o timeout=1", "Invalid compat argument '-o timeout=1'"),
    ("-o source=/a=b", "Invalid compat argument '-o source=/a=b'"),
    ("-o xattr,,no_flock", "Invalid compat argument '-o '"),
];

/// The messages of virtiofsd 1.13.2 for the same words, up to the end of the line.
#[test]
fn what_is_wrong_is_refused_in_virtiofsds_words() {
    for (words, wanted) in WRONG {
        let why = options(words).expect_err(words);
        assert!(why.starts_with(&format!("error: {wanted}")), "{words}: {why}");
        assert!(why.contains("For more information, try '--help'."), "{words}: {why}");
    }
}

#[test]
fn numbers_past_their_limits_are_refused() {
    for wrong in ["--thread-pool-size=1025", "--num-request-queues=64"] {
        assert!(options(wrong).is_err(), "{wrong}");
    }
}

#[test]
fn compat_options_come_last() {
    let of_libvirt = "daemon --fd=3 -o \
         source=/srv/shared,cache=always,sandbox=chroot,xattr,no_flock,no_posix_lock -d";
    let options = parsed(of_libvirt).expect("options");
    assert_eq!((options.shared_dir.as_deref(), options.fd), (Some("/srv/shared"), Some(3)));
    assert!(matches!(
        (&options.cache, options.sandbox),
        (CachePolicy::Always, SandboxMode::Chroot)
    ));
    assert!(options.has_xattr() && options.warnings().len() == 2);
    let both = parsed(
        "daemon --fd=3 --cache=auto -o \
            source=/a,cache=none,loglevel=err,modcaps=-chown --cache=auto",
    );
    let both = both.expect("options");
    assert!(matches!(
        (&both.cache, both.messages()),
        (CachePolicy::Never, log::LevelFilter::Error)
    ));
    assert_eq!(both.modcaps.as_deref(), Some("-chown"));
    let several =
        parsed("daemon --fd=3 -o source=/a,xattr,writeback -o no_xattr,killpriv_v2,no_readdirplus")
            .expect("options");
    assert!(
        !several.has_xattr() && several.writeback && several.killpriv_v2 && several.no_readdirplus
    );
    // `start::run` refuses it
    assert_eq!(parsed("daemon --fd=3 -o xattr").expect("options").shared_dir, None);
    assert!(parsed("daemon --fd=3").is_err());
}

#[test]
fn what_migrates_by_handles_needs_no_paths() {
    let both = "--migration-mode=file-handles --migration-confirm-paths --migration-verify-handles";
    let why = options(both).expect("options").contradictions();
    assert!(why.len() == 2 && why.iter().all(|why| why.ends_with("(because it is unnecessary)")));
    assert!(options("--migration-confirm-paths --migration-verify-handles")
        .expect("options")
        .contradictions()
        .is_empty());
}

#[test]
fn capabilities_are_refused_in_virtiofsds_words() {
    let why = |words: &str| words.parse::<CapabilityChanges>().expect_err(words);
    assert_eq!(why(""), "empty modcap found: expected (+|-)capability:...");
    assert_eq!(why("=+chown"), "invalid modcap action: expecting '+'|'-' but found '='");
    assert!(why("+none").starts_with("invalid capability 'NONE': "));
    assert!("+sys_admin:-CHOWN".parse::<CapabilityChanges>().is_ok());
}

/// Each value of an option has a line in --help, and so has each type of a rule.
#[test]
fn help_explains_each_value() {
    let command = Options::command();
    for (option, values) in [
        ("cache", "auto always metadata never"),
        ("sandbox", "namespace chroot none"),
        ("seccomp", "none kill log trap"),
        ("inode-file-handles", "never prefer mandatory"),
        ("xattrmap", "prefix ok bad unsupported"),
        ("translate-uid", "guest host squash-guest squash-host forbid-guest map"),
        ("migration-mode", "find-paths file-handles"),
        ("migration-on-error", "abort guest-error"),
    ] {
        let mut arguments = command.get_arguments();
        let argument = arguments.find(|argument| argument.get_long() == Some(option));
        let help = argument.and_then(clap::Arg::get_long_help).expect(option).to_string();
        for value in values.split(' ') {
            let has_line = help.lines().any(|line| line.starts_with(&format!("- {value}:")));
            assert!(has_line, "--{option} {value}: {help}");
        }
    }
    let short = command.get_arguments().filter(|argument| argument.get_help().is_none());
    assert_eq!(short.count(), 0);
}
