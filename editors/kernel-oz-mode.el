;;; kernel-oz-mode.el --- Colours, indentation and a run key for Kernel Oz -*- lexical-binding: t; -*-

;;; Commentary:

;; docs/language.md has the language.  To use this, put into the init file
;;     (load "/path/to/editors/kernel-oz-mode.el")
;; Files whose names end with .oz are opened in it then.  C-c C-c runs the text
;; by `compile', and C-x ` goes to the next place that is named.  Where oz is not
;; on the path:
;;     (setq kernel-oz-command "/path/to/oz")

;;; Code:

(require 'compile)

(defvar kernel-oz-command "oz" "The command that runs a text.")

(defvar kernel-oz-mode-syntax-table
  (let ((table (make-syntax-table)))
    (modify-syntax-entry ?_ "w" table)
    (modify-syntax-entry ?\' "\"" table)
    (modify-syntax-entry ?\\ "\\" table)
    (modify-syntax-entry ?\" "." table)
    (modify-syntax-entry ?% "<" table)
    (modify-syntax-entry ?\n ">" table)
    (modify-syntax-entry ?/ ". 14nb" table)
    (modify-syntax-entry ?* ". 23bn" table)
    (dolist (sign '(?= ?+ ?- ?< ?> ?| ?. ?: ?~ ?$ ??))
      (modify-syntax-entry sign "." table))
    table)
  "Atoms in quotes are strings here; comments go to the end of a line, or nest.")

(defconst kernel-oz-words
  '("skip" "local" "in" "end" "if" "then" "else" "case" "of" "thread" "at" "try" "catch" "finally" "raise"
    "proc" "fun" "div" "mod")
  "The reserved words that the language uses.")

(defconst kernel-oz-unused-words
  '("andthen" "attr" "choice" "class" "cond" "declare" "define" "dis" "elsecase" "elseif" "export" "fail" "feat"
    "from" "functor" "import" "lock" "meth" "not" "or" "orelse" "prepare" "prop" "require" "self" "unit")
  "The reserved words that no rule uses.")

(defvar kernel-oz-font-lock-keywords
  `(("{[ \t]*\\(Browse\\|Wait\\|NewCellAt\\|NewCell\\|Exchange\\|NewPort\\|Send\\)\\>" 1 font-lock-builtin-face)
    ("\\<\\(?:proc\\|fun\\)[ \t]*{[ \t]*\\([A-Z]\\w*\\)" 1 font-lock-function-name-face)
    (,(regexp-opt kernel-oz-words 'words) . font-lock-keyword-face)
    (,(regexp-opt kernel-oz-unused-words 'words) . font-lock-warning-face)
    ("\\[\\]" . font-lock-keyword-face)
    ("~?\\<0[0-9]+\\>" . font-lock-warning-face)
    ("\\<[A-Z]\\w*\\>" . font-lock-variable-name-face)
    ("\\<[a-z]\\w*\\>" . font-lock-constant-face)
    ("~?\\<[0-9]+\\>" . font-lock-constant-face))
  "Colours, the first one that fits a place.")

(defvar kernel-oz-indent 2 "How many columns a body stands to the right of its statement.")

(defconst kernel-oz-turning "\\<\\(local\\|proc\\|fun\\|if\\|case\\|thread\\|try\\|raise\\|end\\)\\>")

(defun kernel-oz-depth-at-line ()
  "How many statements are open where this line begins."
  (save-excursion
    (let ((here (line-beginning-position)) (depth 0) (case-fold-search nil))
      (goto-char (point-min))
      (while (re-search-forward kernel-oz-turning here t)
        (unless (nth 8 (save-excursion (syntax-ppss (match-beginning 0))))
          (setq depth (max 0 (+ depth (if (string= (match-string 1) "end") -1 1))))))
      depth)))

(defun kernel-oz-indent-line ()
  "Indent this line by the statements that are open."
  (interactive)
  (let ((depth (kernel-oz-depth-at-line)) (case-fold-search nil))
    (save-excursion
      (back-to-indentation)
      (when (looking-at "\\(?:end\\|else\\|in\\|then\\|catch\\|finally\\)\\>\\|\\[\\]")
        (setq depth (max 0 (1- depth))))
      (indent-line-to (* kernel-oz-indent depth)))
    (when (< (current-column) (current-indentation))
      (back-to-indentation))))

(defun kernel-oz-run ()
  "Save this text and run it; `next-error' goes to the places that are named."
  (interactive)
  (save-buffer)
  (compile compile-command))

(defvar kernel-oz-mode-map
  (let ((map (make-sparse-keymap)))
    (define-key map (kbd "C-c C-c") #'kernel-oz-run)
    map)
  "C-c C-c runs the text.")

;;;###autoload
(define-derived-mode kernel-oz-mode prog-mode "Kernel Oz"
  "Mode for texts of Kernel Oz."
  (setq-local font-lock-defaults '(kernel-oz-font-lock-keywords nil nil))
  (setq-local comment-start "% ")
  (setq-local comment-start-skip "%+[ \t]*")
  (setq-local indent-tabs-mode nil)
  (setq-local indent-line-function #'kernel-oz-indent-line)
  (when buffer-file-name
    (setq-local compile-command
                (concat (shell-quote-argument kernel-oz-command) " --hints " (shell-quote-argument buffer-file-name)))))

;;;###autoload
(add-to-list 'auto-mode-alist '("\\.oz\\'" . kernel-oz-mode))

(provide 'kernel-oz-mode)
;;; kernel-oz-mode.el ends here
