// Runs the text of the editor as a task, whose problem matcher lists the places that are named.
const vscode = require('vscode');

function run() {
  const editor = vscode.window.activeTextEditor;
  if (!editor || editor.document.languageId !== 'kernel-oz') {
    return undefined;
  }
  const command = vscode.workspace.getConfiguration('kernel-oz').get('command', 'oz');
  const file = { value: editor.document.fileName, quoting: vscode.ShellQuoting.Strong };
  const execution = new vscode.ShellExecution(command, ['--hints', file]);
  const task = new vscode.Task({ type: 'shell' }, vscode.TaskScope.Workspace, 'run', 'oz', execution, '$kernel-oz');
  task.presentationOptions = { clear: true, showReuseMessage: false };
  return editor.document.save().then(() => vscode.tasks.executeTask(task));
}

function activate(context) {
  context.subscriptions.push(vscode.commands.registerCommand('kernel-oz.run', run));
}

module.exports = { activate, run };
