;;; smv-mode.el --- Models of McMillan's SMV language  -*- lexical-binding: t; -*-

;;; Commentary:
;; A mode for files *.smv, with the language server by eglot: put this folder on `load-path', and (require 'smv-mode) into the
;; init file; M-x eglot starts the server.  `smv-command' is the command: smv on the path, or the whole path of ./smv.

;;; Code:

(defgroup smv nil "Models of the SMV language." :group 'languages)

(defcustom smv-command "smv" "The command that starts the checker." :type 'string)

(defconst smv-name-end "\\(?:[^A-Za-z0-9_-]\\|-[^A-Za-z0-9_]\\|-?$\\)" "What may stand behind a word.")

(defun smv--words (&rest words)
  "A search for WORDS that are no part of a name."
  (concat "\\(?:^\\|[^A-Za-z0-9_-]\\)\\(" (regexp-opt words) "\\)" smv-name-end))

(defvar smv-font-lock-keywords
  `((,(smv--words "MODULE" "VAR" "ASSIGN" "DEFINE" "INIT" "INVAR" "TRANS" "SPEC" "FAIRNESS") 1 font-lock-keyword-face)
    (,(smv--words "boolean" "process" "array" "of") 1 font-lock-type-face)
    (,(smv--words "init" "next" "case" "esac" "running" "mod" "union" "in") 1 font-lock-builtin-face)
    (,(smv--words "EX" "AX" "EF" "AF" "EG" "AG" "E" "A" "U") 1 font-lock-function-name-face)
    (,(smv--words "TRUE" "FALSE") 1 font-lock-constant-face)
    (,(smv--words "ISA" "COMPUTE" "INPUT" "OUTPUT" "OPAQUE" "self" "LTLSPEC" "IVAR") 1 font-lock-warning-face))
  "What is coloured.")

(defvar smv-mode-syntax-table
  (let ((table (make-syntax-table)))
    (modify-syntax-entry ?- ". 12" table)
    (modify-syntax-entry ?\n ">" table)
    (modify-syntax-entry ?_ "_" table)
    (modify-syntax-entry ?\" "." table)
    table)
  "Comments begin with two minus signs.")

;;;###autoload
(define-derived-mode smv-mode prog-mode "SMV"
  "A mode for models of the SMV language."
  (setq-local font-lock-defaults '(smv-font-lock-keywords))
  (setq-local comment-start "-- ")
  (setq-local comment-start-skip "--+[ \t]*")
  (setq-local indent-line-function #'indent-relative)
  (setq-local compile-command (concat smv-command " diagnose " (and buffer-file-name (shell-quote-argument buffer-file-name)))))

;;;###autoload
(add-to-list 'auto-mode-alist '("\\.smv\\'" . smv-mode))

(defvar eglot-server-programs)
(with-eval-after-load 'eglot
  (add-to-list 'eglot-server-programs `(smv-mode . (,smv-command "lsp"))))

(provide 'smv-mode)
;;; smv-mode.el ends here
