;;; check-dap.el --- dap-mode over views/dap, without windows  -*- lexical-binding: t; -*-

;;; Commentary:
;; `tests/test_dap.py' runs it by emacs --batch, with the folder of the views as VIEWS and the lines of README.md as the file INIT, and compares the lines that it tells with those that stand after each
;; move.

;;; Code:

(package-initialize)
(setq user-emacs-directory (expand-file-name "emacs/") dap-breakpoints-file (expand-file-name "breakpoints") lsp-session-file (expand-file-name "lsp-session") lsp-message-project-root-warning nil)
(require 'cl-lib)
(require 'dap-mode)
(setq dap-auto-show-output nil dap-print-io nil)

(defconst views (getenv "VIEWS"))
(defconst source (expand-file-name "lost_sum.agc" (expand-file-name "../examples" views)))
(load (expand-file-name "editors/emacs/agc-mode.el" views) nil t)
(load (getenv "INIT") nil t)

(defun say (text &rest values)
  "Tell a TEXT with VALUES in it, as a line of its own."
  (princ (concat "## " (replace-regexp-in-string "\n" " | " (apply #'format text values)) "\n") #'external-debugging-output))

(defun await (test)
  "Wait until TEST, for 15 seconds at most."
  (let ((end (+ (float-time) 15)))
    (while (and (not (funcall test)) (< (float-time) end))
      (accept-process-output nil 0.02))))

(defun session () "The session at work." (dap--cur-session))

(defun move (label work)
  "Do WORK, which is to end in a stop, and tell where that is, after LABEL."
  (when (session) (setf (dap--debug-session-active-frame (session)) nil))
  (condition-case wrong (funcall work) (error (say "%s: %S" label wrong)))
  (await (lambda () (and (session) (dap--debug-session-active-frame (session)))))
  (let ((frame (and (session) (dap--debug-session-active-frame (session)))))
    (say "%s: %s, line %s" label (and frame (gethash "name" frame)) (and frame (gethash "line" frame)))))

(defun asked (name &rest values)
  "The body of the answer to a request of a NAME with VALUES."
  (let ((answer (apply #'dap-request (session) name values)))
    (or (gethash "body" answer) answer)))

(defun processes ()
  "How many adapters there are that this Emacs has started."
  (cl-count-if (lambda (it) (process-live-p it)) (process-list)))

(dap-mode 1)
(lsp-workspace-folders-add (file-name-directory source))
(find-file source)
(say "mode %s" major-mode)
;;=> mode agc-mode
(goto-char (point-min))
(forward-line 29)
(dap-breakpoint-add)
(cl-letf (((symbol-function 'read-string) (lambda (&rest _) "SUM > 0")))
  (dap-breakpoint-condition (buffer-file-name) (car (gethash (buffer-file-name) (dap--get-breakpoints)))))
(move "launch" (lambda () (dap-debug (list :type "agcws" :request "launch" :name "lost_sum" :program source
                                           :feed (concat (file-name-sans-extension source) ".feed")))))
;;=> launch: 02,4000, line 13
(move "continue" (lambda () (dap-continue (session) 1)))
;;=> continue: LOOP +5, line 30
(move "step back" (lambda () (asked "stepBack" :threadId 1)))
;;=> step back: LOOP +4, which RESUME has brought, line 29
(move "next" (lambda () (dap-next (session))))
;;=> next: LOOP +5, line 30
(move "step in" (lambda () (dap-step-in (session))))
;;=> step in: LOOP +6, line 31
(move "step out" (lambda () (dap-step-out (session))))
;;=> step out: LOOP +6, line 31
(say "evaluate: %s" (gethash "result" (asked "evaluate" :expression "SUM" :context "hover" :frameId 1)))
;;=> evaluate: 00001 = 1 = +0.00006 = 000 000 000 000 001 | BY 22 TS SUM : SUM 00001 FROM A 000001
(say "why: %s" (gethash "text" (elt (gethash "steps" (asked "why" :expression "SUM")) 1)))
;;=> why: BY 20 ADS TICKS : A 000001 FROM A 000001 TICKS 00000 IN STEP 18
(say "data: %s" (gethash "verified" (elt (gethash "breakpoints" (asked "setDataBreakpoints" :breakpoints (vector (list :dataId "SUM")))) 0)))
;;=> data: t
(dap-breakpoint-delete-all)
(move "continue to a change" (lambda () (dap-continue (session) 1)))
;;=> continue to a change: LOOP +5, line 30
(move "reverse continue" (lambda () (asked "reverseContinue" :threadId 1)))
;;=> reverse continue: LOOP +5, line 30
(say "SUM there: %s" (substring (gethash "result" (asked "evaluate" :expression "SUM" :frameId 1)) 0 5))
;;=> SUM there: 00001
(move "restart of the frame" (lambda () (dap-restart-frame (session) 1)))
;;=> restart of the frame: 02,4000, line 13
(move "restart" (lambda () (asked "restart")))
;;=> restart: 02,4000, line 13
(move "restart by a new session" #'dap-debug-restart)
;;=> restart by a new session: 02,4000, line 13
(dap-disconnect (session))
(await (lambda () (= 0 (processes))))
(say "after disconnect: %d adapters" (processes))
;;=> after disconnect: 0 adapters
(move "launch again" (lambda () (dap-debug (list :type "agcws" :request "launch" :name "again" :program source))))
;;=> launch again: 02,4000, line 13
(condition-case nil (asked "evaluate" :expression "quit" :context "repl") (error nil))
(await (lambda () (not (dap--session-running (session)))))
(say "after quit: %s" (dap--session-running (session)))
;;=> after quit: nil

;;; check-dap.el ends here
