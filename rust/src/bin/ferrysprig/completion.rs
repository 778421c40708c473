//! `completion`: what a shell needs to complete a line.

use crate::arguments::{Arguments, Command};
use crate::end::{End, Verdict};
use crate::output::print;
use crate::COMMANDS;

pub const COMPLETION: Command = Command {
    name: "completion",
    does: "Prints a script by which a shell completes commands and options.",
    operands: &["bash"],
    options: &[],
    more: "To have it in this shell:\n\n  source <(ferrysprig completion bash)",
    run,
};

fn run(given: &Arguments) -> Result<Verdict, End> {
    if given.operand(0).as_os_str() != "bash" {
        let other = given.operand(0).display();
        return Err(End::Usage(format!(
            "completion: no script is known for {other}"
        )));
    }
    print(bash())?;
    Ok(Verdict::Accepted)
}

fn bash() -> String {
    let names: Vec<&str> = COMMANDS.iter().map(|command| command.name).collect();
    let mut cases = String::new();
    for command in COMMANDS {
        let mut words: Vec<&str> = command.options.iter().map(|option| option.name).collect();
        words.push("--help");
        // An operand in small letters is one of these words.
        let choices = command
            .operands
            .iter()
            .flat_map(|operand| operand.split('|'));
        words.extend(choices.filter(|word| word.starts_with(|c: char| c.is_ascii_lowercase())));
        cases += &format!("        {}) words='{}' ;;\n", command.name, words.join(" "));
    }
    format!(
        "# Completes `ferrysprig` in bash.\n\
         _ferrysprig() {{\n\
         \x20   local word=${{COMP_WORDS[COMP_CWORD]}} words=\n\
         \x20   if [ \"$COMP_CWORD\" -eq 1 ]; then\n\
         \x20       mapfile -t COMPREPLY < <(compgen -W '{} help --help --version' -- \"$word\")\n\
         \x20       return\n\
         \x20   fi\n\
         \x20   case ${{COMP_WORDS[1]}} in\n\
         {cases}\
         \x20       help) words='{}' ;;\n\
         \x20   esac\n\
         \x20   mapfile -t COMPREPLY < <(compgen -W \"$words\" -- \"$word\")\n\
         \x20   case $word in -*) ;; *) mapfile -O ${{#COMPREPLY[@]}} -t COMPREPLY < <(compgen -f -- \"$word\") ;; esac\n\
         }}\n\
         complete -o filenames -F _ferrysprig ferrysprig\n",
        names.join(" "),
        names.join(" "),
    )
}
