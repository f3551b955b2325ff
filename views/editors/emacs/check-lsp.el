;;; check-lsp.el --- eglot beside views/lsp: what it shows, and what it does when asked  -*- lexical-binding: t; -*-

;;; Commentary:
;; `tests/test_lsp.py' runs it by emacs --batch -l check-lsp.el VIEWS FILE, with the lines of README.md as the file INIT, and compares the lines that it tells.

;;; Code:

(package-initialize)
(setq make-backup-files nil create-lockfiles nil eglot-sync-connect 5 flymake-no-changes-timeout nil last-nonmenu-event ?x)
(require 'eglot)
(let ((views (pop command-line-args-left)))
  (load (concat views "/editors/emacs/check-editor.el"))
  (load (getenv "INIT")))

(defun check-marks ()
  "Return what is marked: number, text and kind of each."
  (flymake-start)
  (mapcar (lambda (it)
            (list (line-number-at-pos (flymake-diagnostic-beg it))
                  (buffer-substring-no-properties (flymake-diagnostic-beg it) (flymake-diagnostic-end it))))
          (sort (flymake-diagnostics) (lambda (a b) (< (flymake-diagnostic-beg a) (flymake-diagnostic-beg b))))))

(find-file (pop command-line-args-left))
(apply #'eglot (eglot--guess-contact))
(check-wait #'check-marks)
(dolist (it (check-marks)) (check-say "mark %d %s" (car it) (cadr it)))
(check-go "FIV\n")
(cl-letf (((symbol-function 'completing-read) (lambda (_prompt offered &rest _) (caar offered))))
  (call-interactively #'eglot-code-actions))
(check-wait (lambda () (save-excursion (goto-char (point-min)) (search-forward "CA\tFIVE" nil t))))
(check-say "line %s" (replace-regexp-in-string "\t" " " (buffer-substring-no-properties (line-beginning-position) (line-end-position))))
(check-go "TFC     START")
(xref-find-definitions "LSP identifier at point.")
(check-say "definition %d" (line-number-at-pos))
(check-go "TFC     START")
(eglot-rename "AGAIN")
(check-say "renamed %d" (save-excursion (goto-char (point-min)) (how-many "\\<AGAIN\\>")))
(eglot-shutdown-all)
(set-buffer-modified-p nil)

;;; check-lsp.el ends here
