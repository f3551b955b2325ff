;;; agc-mode.el --- Sources of the Apollo Guidance Computer  -*- lexical-binding: t; -*-

;;; Commentary:
;; A label or none, an operator, and its operand and offset, as agcws takes them.

;;; Code:

(defconst agc-operators
  (ignore-errors
    (json-parse-string
     (shell-command-to-string
      (concat "python3 " (shell-quote-argument
                          (expand-file-name "../../manual.py" (file-name-directory (or load-file-name buffer-file-name))))))
     :array-type 'list))
  "The operators of each group, by the tables of the manual; nil where python3 or the manual is not there.")

(defun agc-operator (group)
  "Return a pattern of a line whose operator is one of GROUP."
  (concat "^[^ \t#\n]*[ \t]+\\(" (regexp-opt (gethash group agc-operators)) "\\)\\(?:[ \t#]\\|$\\)"))

(defconst agc-font-lock-keywords
  `(("^[^ \t#\n]+" . font-lock-function-name-face)
    ,@(when agc-operators
        `((,(agc-operator "directive") 1 font-lock-preprocessor-face)
          (,(agc-operator "constant") 1 font-lock-type-face)
          (,(agc-operator "instruction") 1 font-lock-keyword-face)
          (,(agc-operator "extracode") 1 font-lock-builtin-face)
          ("^[^ \t#\n]*[ \t]+\\([^ \t#\n]+\\)" 1 font-lock-warning-face)))
    ("[ \t]\\([+-]?[0-9]*\\.?[0-9]+D?\\)\\(?:[ \t#]\\|$\\)" 1 font-lock-constant-face)))

;;;###autoload
(define-derived-mode agc-mode prog-mode "AGC"
  "Major mode for sources of the Apollo Guidance Computer."
  (setq-local comment-start "# ")
  (setq-local comment-start-skip "#+[ \t]*")
  (setq-local tab-width 8)
  (when buffer-file-name
    (setq-local compile-command (concat "agcws check " (shell-quote-argument (file-name-nondirectory buffer-file-name)))))
  (setq-local indent-tabs-mode nil)
  (setq-local indent-line-function #'indent-relative)
  (modify-syntax-entry ?# "<")
  (modify-syntax-entry ?\n ">")
  (modify-syntax-entry ?\" ".")
  (setq-local font-lock-defaults '(agc-font-lock-keywords)))

;;;###autoload
(add-to-list 'auto-mode-alist '("\\.agc\\'" . agc-mode))

(provide 'agc-mode)

;;; agc-mode.el ends here
