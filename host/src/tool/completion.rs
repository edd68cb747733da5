//! Completions for shells.

use crate::table::{Command, Opt, COMMANDS};

/// The first words of all commands, each once.
fn first_words() -> Vec<&'static str> {
    let mut words: Vec<&str> = COMMANDS.iter().filter_map(|command| command.name.split(' ').next()).collect();
    words.dedup();
    words
}

/// The commands, and the groups with their second words.
fn groups() -> impl Iterator<Item = (&'static str, Vec<&'static str>)> {
    first_words().into_iter().map(|first| (first, Command::group(first))).filter(|(_, seconds)| !seconds.is_empty())
}

/// The options as they are typed.
fn typed(option: &Opt) -> Vec<String> {
    let short = option.short.map(|short| format!("-{short}"));
    short.into_iter().chain([option.long.to_owned()]).collect()
}

pub fn bash() -> String {
    let mut text = "# bash completion for codebook; `codebook completion bash` prints it\n\n_codebook() {\n".to_owned();
    text += "    local word=${COMP_WORDS[COMP_CWORD]} command=${COMP_WORDS[1]} choices=\n    COMPREPLY=()\n";
    text += &format!(
        "    if [ \"$COMP_CWORD\" -eq 1 ]; then\n        choices='{} --help --version'\n    else\n        case $command in\n",
        first_words().join(" ")
    );
    for (first, seconds) in groups() {
        text +=
            &format!("        {first}) command=\"$command ${{COMP_WORDS[2]}}\"; [ \"$COMP_CWORD\" -eq 2 ] && choices='{}' ;;\n", seconds.join(" "));
    }
    text += "        completion) choices='bash zsh' ;;\n";
    text += &format!("        help) choices='{}' ;;\n        esac\n        case $word in -*) case $command in\n", first_words().join(" "));
    for command in &COMMANDS {
        let options: Vec<String> = command.all_options().flat_map(typed).collect();
        text += &format!("        '{}') choices='{}' ;;\n", command.name, options.join(" "));
    }
    text += "        esac ;; esac\n    fi\n";
    text + "    if [ -n \"$choices\" ]; then COMPREPLY=($(compgen -W \"$choices\" -- \"$word\")); fi\n}\ncomplete -o default -F _codebook codebook\n"
}

pub fn zsh() -> String {
    let mut text =
        "#compdef codebook\n# zsh completion for codebook; `codebook completion zsh` prints it\n\n_codebook() {\n    local -a commands\n".to_owned();
    text += "    if (( CURRENT == 2 )); then\n        commands=(\n";
    for first in first_words() {
        let summary = Command::named(first).map_or("a group of commands", |command| command.summary);
        text += &format!("            '{first}:{}'\n", quoted(summary));
    }
    text += "            '--help:print help'\n            '--version:print the version'\n";
    text += "        )\n        _describe command commands\n        return\n    fi\n    local command=$words[2]\n    case $command in\n";
    for (first, seconds) in groups() {
        text += &format!(
            "    {first})\n        if (( CURRENT == 3 )); then compadd {}; return; fi\n        command+=\" $words[3]\" ;;\n",
            seconds.join(" ")
        );
    }
    text += &format!(
        "    completion) compadd bash zsh; return ;;\n    help) compadd {}; return ;;\n    esac\n    case $command in\n",
        first_words().join(" ")
    );
    for command in &COMMANDS {
        let options: Vec<String> =
            command.all_options().flat_map(|option| typed(option).into_iter().map(move |form| argument(option, &form))).collect();
        text += &format!("    '{}') _arguments {} '*:file:_files' ;;\n", command.name, options.join(" "));
    }
    text + "    esac\n}\n\n_codebook \"$@\"\n"
}

/// An option as zsh's `_arguments` takes it.
fn argument(option: &Opt, form: &str) -> String {
    let value = option.value.map_or(String::new(), |value| format!(":{value}:{}", if option.file { "_files" } else { " " }));
    format!("'{form}[{}]{value}'", quoted(option.help))
}

/// Words between single quotes of a shell, where brackets and colons have a meaning.
fn quoted(words: &str) -> String {
    words.replace('\\', "\\\\").replace('[', "\\[").replace(']', "\\]").replace(':', "\\:").replace('\'', "'\\''")
}
