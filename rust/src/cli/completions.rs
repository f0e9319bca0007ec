//! Completions for shells, made of the table of commands.
use super::help::{repeated, Choice, Topic, GENERAL, OPTIONS, TOPICS};

/// The shells that there are completions for.
pub const SHELLS: [&str; 3] = ["bash", "zsh", "fish"];

/// The script for a shell.
pub fn script(shell: &str) -> Option<String> {
    match shell {
        "bash" => Some(bash()),
        "zsh" => Some(zsh()),
        "fish" => Some(fish()),
        _ => None,
    }
}

/// What a word of a call can be completed to.
#[derive(Clone, Copy, Debug, PartialEq, Eq)]
enum Value {
    File,
    Folder,
    Command,
    Shell,
    /// A number, a commitment: nothing that could be known.
    Free,
}

/// What an operand or the value of an option is, by the name that the table has for it.
fn value(operand: &str) -> Value {
    let word = operand.split('|').next().and_then(|word| word.split(' ').next_back()).unwrap_or_default();
    match word.trim_matches(['[', ']', '.']) {
        "FOLDER" => Value::Folder,
        "COMMAND" => Value::Command,
        "SHELL" => Value::Shell,
        "SIZE" | "N" | "PLACE" | "HOUSE" | "COMMITMENT" | "RAW_LENGTH" | "NAME" => Value::Free,
        _ => Value::File,
    }
}

/// The options of a command, in the order of the table.
fn options(topic: &Topic) -> impl Iterator<Item = &'static Choice> + '_ {
    OPTIONS.iter().filter(|choice| topic.options.contains(&choice.name))
}

/// The names of all commands, with spaces between them.
fn commands() -> String {
    TOPICS.iter().map(|topic| topic.name).collect::<Vec<_>>().join(" ")
}

/// The options whose value is of a kind, as one pattern of a shell's `case`; those of another are none of them.
fn options_with(wanted: impl Fn(Value) -> bool) -> String {
    let with = OPTIONS.iter().filter(|choice| !choice.value.is_empty() && wanted(value(choice.value)));
    let spelled = with.map(|choice| match choice.name {
        "output" => "-o | --output".to_string(),
        name => format!("--{name}"),
    });
    spelled.collect::<Vec<_>>().join(" | ")
}

/// The operands of a kind, as one pattern `command,number | ...` of a shell's `case`.
fn operands_with(wanted: Value) -> String {
    let of = |topic: &'static Topic| {
        let places = topic.operands.iter().enumerate().filter(move |(_, operand)| value(operand) == wanted);
        places.map(move |(i, operand)| match repeated(operand) {
            true => format!("{},*", topic.name),
            false => format!("{},{i}", topic.name),
        })
    };
    TOPICS.iter().flat_map(of).collect::<Vec<_>>().join(" | ")
}

const BASH: &str = r#"# Completions of vizhuthamen for bash, made by: vizhuthamen completions bash
_vizhuthamen() {
    local current=${COMP_WORDS[COMP_CWORD]} command='' option='' ended='' operands=0 options word i
    COMPREPLY=()
    # bash takes --option=value for three words.
    [[ $current == = ]] && current=''
    for ((i = 1; i < COMP_CWORD; i++)); do
        word=${COMP_WORDS[i]}
        if [[ -n $option ]]; then
            [[ $word == = ]] || option=''
        elif [[ -z $ended && $word == -- ]]; then
            ended=yes
        elif [[ -z $ended && $word == -* ]]; then
            case $word in
                @VALUED@) option=$word ;;
            esac
        elif [[ -z $command ]]; then
            command=$word
        else
            operands=$((operands + 1))
        fi
    done
    # Where nothing is answered, bash completes file names, unless it is told not to.
    if [[ -n $option ]]; then
        case $option in
            @FILES@) ;;
            *) compopt +o default 2>/dev/null ;;
        esac
        return
    fi
    if [[ -z $ended && $current == -* ]]; then
        options='@GENERAL@'
        case $command in
@OPTIONS@
        esac
        compopt +o default 2>/dev/null
        mapfile -t COMPREPLY < <(compgen -W "$options" -- "$current")
        return
    fi
    case $command,$operands in
        @FILE_OPERANDS@) return ;;
        @FOLDER_OPERANDS@) compopt +o default -o dirnames 2>/dev/null && return ;;
        ,0 | @COMMAND_OPERANDS@) mapfile -t COMPREPLY < <(compgen -W '@COMMANDS@' -- "$current") ;;
        @SHELL_OPERANDS@) mapfile -t COMPREPLY < <(compgen -W '@SHELLS@' -- "$current") ;;
    esac
    compopt +o default 2>/dev/null
}
complete -o default -F _vizhuthamen vizhuthamen
"#;

fn bash() -> String {
    let row = |topic: &Topic| {
        let names: String = options(topic).map(|choice| format!(" --{}", choice.name)).collect();
        (!names.is_empty()).then(|| format!("            {}) options+='{names}' ;;", topic.name))
    };
    let general: Vec<String> = GENERAL.iter().map(|choice| format!("--{}", choice.name)).collect();
    BASH.replace("@VALUED@", &options_with(|_| true))
        .replace("@FILES@", &options_with(|value| value == Value::File))
        .replace("@GENERAL@", &general.join(" "))
        .replace("@OPTIONS@", &TOPICS.iter().filter_map(row).collect::<Vec<_>>().join("\n"))
        .replace("@FILE_OPERANDS@", &operands_with(Value::File))
        .replace("@FOLDER_OPERANDS@", &operands_with(Value::Folder))
        .replace("@COMMAND_OPERANDS@", &operands_with(Value::Command))
        .replace("@SHELL_OPERANDS@", &operands_with(Value::Shell))
        .replace("@COMMANDS@", &commands())
        .replace("@SHELLS@", &SHELLS.join(" "))
}

const ZSH: &str = r#"#compdef vizhuthamen
# Completions of vizhuthamen for zsh, made by: vizhuthamen completions zsh
_vizhuthamen() {
    local curcontext=$curcontext state line
    local -A opt_args
    local -a commands general
    commands=(
@COMMANDS@
    )
    general=(
@GENERAL@
    )
    _arguments -C $general '1:command:->command' '*::operand:->operand' && return
    case $state in
        command) _describe command commands ;;
        operand)
            case $words[1] in
@TOPICS@
            esac ;;
    esac
}
if [[ $funcstack[1] == _vizhuthamen ]]; then
    _vizhuthamen "$@"
else
    compdef _vizhuthamen vizhuthamen
fi
"#;

fn zsh() -> String {
    let command = |topic: &Topic| format!("        '{}:{}'", topic.name, quoted(topic.summary));
    let lines = |lines: Vec<String>| lines.join("\n");
    ZSH.replace("@COMMANDS@", &lines(TOPICS.iter().map(command).collect()))
        .replace("@GENERAL@", &lines(GENERAL.iter().map(|choice| format!("        {}", zsh_option(choice))).collect()))
        .replace("@TOPICS@", &lines(TOPICS.iter().map(zsh_topic).collect()))
}

/// The specification of an option for _arguments.
fn zsh_option(choice: &Choice) -> String {
    let summary = quoted(choice.summary).replace('[', "\\[").replace(']', "\\]");
    let short = match choice.name {
        "output" => "-o",
        "help" => "-h",
        "version" => "-V",
        name if choice.value.is_empty() => return format!("'--{name}[{summary}]'"),
        name => return format!("'--{name}=[{summary}]:{}:{}'", choice.value, zsh_action(value(choice.value))),
    };
    match choice.value {
        "" => format!("'(-){short}[{summary}]' '(-)--{}[{summary}]'", choice.name),
        what => {
            let action = zsh_action(value(what));
            format!("'{short}[{summary}]:{what}:{action}' '--{}=[{summary}]:{what}:{action}'", choice.name)
        }
    }
}

/// A command's options and operands for _arguments.
fn zsh_topic(topic: &'static Topic) -> String {
    let operand = |(i, operand): (usize, &&str)| {
        let optional = if operand.ends_with(']') { ":" } else { "" };
        let shown = operand.replace(['[', ']'], "");
        // What is not known is named, but for a word that begins an option.
        let action = match value(operand) {
            Value::Free => format!("_guard \"^-*\" \"{shown}\""),
            value => zsh_action(value),
        };
        match repeated(operand) {
            true => format!("'*:{shown}:{action}'"),
            false => format!("'{}{optional}:{shown}:{action}'", i + 1),
        }
    };
    let words: Vec<String> =
        options(topic).map(zsh_option).chain(topic.operands.iter().enumerate().map(operand)).collect();
    format!("                {}) _arguments $general {} ;;", topic.name, words.join(" "))
}

/// What completes a value.
fn zsh_action(value: Value) -> String {
    match value {
        Value::File => "_files".to_string(),
        Value::Folder => "_files -/".to_string(),
        Value::Command => format!("({})", commands()),
        Value::Shell => format!("({})", SHELLS.join(" ")),
        Value::Free => " ".to_string(),
    }
}

fn fish() -> String {
    let mut text = "# Completions of vizhuthamen for fish, made by: vizhuthamen completions fish\n".to_string();
    text.push_str("complete -c vizhuthamen -f\n");
    for topic in TOPICS {
        let summary = quoted(topic.summary);
        text.push_str(&format!("complete -c vizhuthamen -n __fish_use_subcommand -a {} -d '{summary}'\n", topic.name));
    }
    for topic in TOPICS {
        let seen = format!("complete -c vizhuthamen -n '__fish_seen_subcommand_from {}'", topic.name);
        options(topic).for_each(|choice| text.push_str(&format!("{seen} {}\n", fish_option(choice))));
        let mut kinds: Vec<Value> = topic.operands.iter().map(|operand| value(operand)).collect();
        kinds.dedup();
        for kind in kinds {
            match kind {
                Value::File | Value::Folder => text.push_str(&format!("{seen} -F\n")),
                Value::Command => text.push_str(&format!("{seen} -a '{}'\n", commands())),
                Value::Shell => text.push_str(&format!("{seen} -a '{}'\n", SHELLS.join(" "))),
                Value::Free => {}
            }
        }
    }
    GENERAL.iter().fold(text, |text, choice| text + &format!("complete -c vizhuthamen {}\n", fish_option(choice)))
}

/// An option: its names, what its value is, what it does.
fn fish_option(choice: &Choice) -> String {
    let short = match choice.name {
        "output" => "-s o ",
        "help" => "-s h ",
        "version" => "-s V ",
        _ => "",
    };
    let takes = match (choice.value, value(choice.value)) {
        ("", _) => "",
        (_, Value::File | Value::Folder) => "-r -F ",
        _ => "-x ",
    };
    format!("{short}-l {} {takes}-d '{}'", choice.name, quoted(choice.summary))
}

/// A text between single quotes of a shell.
fn quoted(text: &str) -> String {
    text.replace('\'', "'\\''")
}

#[cfg(test)]
mod tests {
    use super::*;

    /// The row of a script that begins so.
    fn row<'s>(script: &'s str, start: &str) -> &'s str {
        let row = script.lines().find(|line| line.trim_start().starts_with(start));
        row.unwrap_or_else(|| panic!("no row begins with: {start}"))
    }

    #[test]
    fn every_command_stands_in_every_script() {
        let (bash, zsh, fish) = (bash(), zsh(), fish());
        assert_eq!(bash.matches(&format!("'{}'", commands())).count(), 1);
        for topic in TOPICS {
            let (name, summary) = (topic.name, quoted(topic.summary));
            assert_eq!(row(&zsh, &format!("'{name}:")).trim(), format!("'{name}:{summary}'"));
            row(&zsh, &format!("{name}) _arguments $general "));
            row(&fish, &format!("complete -c vizhuthamen -n __fish_use_subcommand -a {name} -d '{summary}'"));
        }
    }

    #[test]
    fn every_option_stands_in_every_script() {
        let (bash, zsh, fish) = (bash(), zsh(), fish());
        for topic in TOPICS {
            let name = topic.name;
            let of_bash: String = options(topic).map(|choice| format!(" --{}", choice.name)).collect();
            if !of_bash.is_empty() {
                assert_eq!(
                    row(&bash, &format!("{name}) options+=")).trim(),
                    format!("{name}) options+='{of_bash}' ;;")
                );
            }
            let of_zsh = row(&zsh, &format!("{name}) _arguments"));
            for choice in options(topic) {
                assert!(of_zsh.contains(&format!(" '--{}", choice.name)), "{name} {}", choice.name);
                let start = format!("complete -c vizhuthamen -n '__fish_seen_subcommand_from {name}' ");
                row(&fish, &(start + &fish_option(choice)));
            }
            assert_eq!(options(topic).count(), topic.options.len(), "{name} has an option that is none");
        }
        for choice in GENERAL {
            assert!(bash.contains(&format!("--{} ", choice.name)) || bash.contains(&format!("--{}'", choice.name)));
            assert!(zsh.contains(&zsh_option(choice)) && fish.contains(&fish_option(choice)));
        }
    }

    #[test]
    fn no_part_of_a_script_is_left_open() {
        for shell in SHELLS {
            let script = script(shell).unwrap();
            assert!(!script.replace("\"$@\"", "").contains('@'), "{shell}");
        }
        assert_eq!(script("tcsh"), None);
    }

    #[test]
    fn values_by_their_names() {
        let cases = [
            ("DEAL", Value::File),
            ("[--raw] FILE", Value::File),
            ("[HOUSE]", Value::Free),
            ("[PLACE...|--slot N]", Value::Free),
            ("[N]", Value::Free),
            ("PLACE|--slot N", Value::Free),
            ("COMMITMENT", Value::Free),
            ("LOG", Value::File),
            ("FOLDER", Value::Folder),
            ("[COMMAND]", Value::Command),
            ("FILE...", Value::File),
            ("[NAME...]", Value::Free),
            ("SHELL", Value::Shell),
        ];
        for (operand, expected) in cases {
            assert_eq!(value(operand), expected, "{operand}");
        }
    }
}
