;;; check-editor.el --- what the scripts that try a client of views/lsp share  -*- lexical-binding: t; -*-

;;; Code:

(defun check-say (form &rest values)
  "Print FORM with VALUES as a line."
  (princ (concat (apply #'format form values) "\n")))

(defun check-wait (test)
  "Wait until TEST answers."
  (let ((end (+ (float-time) 20)))
    (while (and (not (funcall test)) (< (float-time) end))
      (accept-process-output nil 0.02))))

(defun check-go (text)
  "Go to TEXT, into its midst."
  (goto-char (point-min))
  (search-forward text)
  (backward-char 1))

;;; check-editor.el ends here
