;;; check-lsp-mode.el --- lsp-mode beside views/lsp: what it shows, and what it does when asked  -*- lexical-binding: t; -*-

;;; Commentary:
;; `tests/test_lsp.py' runs it by emacs --batch -l check-lsp-mode.el VIEWS FILE, with the lines of README.md as the file INIT, and compares the lines that it tells.

;;; Code:

(package-initialize)
(setq make-backup-files nil create-lockfiles nil user-emacs-directory default-directory lsp-session-file (expand-file-name "session") lsp-auto-guess-root t
      lsp-enable-suggest-server-download nil lsp-enable-file-watchers nil lsp-diagnostics-provider :none lsp-headerline-breadcrumb-enable nil last-nonmenu-event ?x)
(require 'cl-lib)
(require 'lsp-mode)
(let ((views (pop command-line-args-left)))
  (load (concat views "/editors/emacs/check-editor.el"))
  (load (getenv "INIT")))

(defun check-marks ()
  "Return the diagnostics of this buffer."
  (append (gethash (lsp--fix-path-casing buffer-file-name) (lsp-diagnostics)) nil))

(find-file (pop command-line-args-left))
(lsp-workspace-folders-add default-directory)
(lsp)
(check-wait #'check-marks)
(dolist (it (check-marks))
  (let ((range (lsp:diagnostic-range it)))
    (check-say "mark %d %s" (1+ (lsp:position-line (lsp:range-start range)))
               (buffer-substring-no-properties (lsp--position-to-point (lsp:range-start range)) (lsp--position-to-point (lsp:range-end range))))))
(check-go "FIV\n")
(lsp-execute-code-action (seq-first (lsp-code-actions-at-point)))
(check-wait (lambda () (save-excursion (goto-char (point-min)) (search-forward "CA\tFIVE" nil t))))
(check-say "line %s" (replace-regexp-in-string "\t" " " (buffer-substring-no-properties (line-beginning-position) (line-end-position))))
(check-go "TFC     START")
(lsp-find-definition)
(check-say "definition %d" (line-number-at-pos))
(check-go "TFC     START")
(lsp-rename "AGAIN")
(check-say "renamed %d" (save-excursion (goto-char (point-min)) (how-many "\\<AGAIN\\>")))
(set-buffer-modified-p nil)
(lsp-workspace-shutdown (seq-first (lsp-workspaces)))
(sleep-for 0.5)

;;; check-lsp-mode.el ends here
