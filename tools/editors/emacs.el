;;; Uses a language server as a person does in Emacs with eglot, and prints what it sees, one line each.  -*- lexical-binding: t -*-
;;
;; The environment names the server (MBE_LSP) and the file (MBE_FILE).
(require 'json)
(require 'eglot)
(require 'flymake)
(require 'xref)

(defun say (name value)
  (princ (format "%s\t%s\n" name (json-encode value))))

(defun wait (what condition)
  "Waits until a condition holds, for at most ten seconds."
  (let ((end (+ (float-time) 10)))
    (while (and (not (funcall condition)) (< (float-time) end))
      (accept-process-output nil 0.05))
    (unless (funcall condition)
      (say "timeout" what)
      (kill-emacs 1))))

(define-derived-mode rusty-mode prog-mode "Rusty")
(add-to-list 'auto-mode-alist '("\\.rs\\'" . rusty-mode))
(add-to-list 'eglot-server-programs (list 'rusty-mode (getenv "MBE_LSP")))
(setq eglot-sync-connect 10 eglot-send-changes-idle-time 0 flymake-no-changes-timeout 0.1
      eglot-confirm-server-initiated-edits nil)

(find-file (getenv "MBE_FILE"))
(rusty-mode)
(call-interactively #'eglot)
(flymake-mode 1)
(flymake-start)

;; A word is typed that no rule expects, and taken away again.
(goto-char (point-max))
(search-backward "1")
(delete-char 1)
(insert "fn")
(eglot--signal-textDocument/didChange)
(wait "diagnostic" (lambda () (flymake-start) (flymake-diagnostics)))
(let ((it (car (flymake-diagnostics))))
  (say "diagnostics"
       (list (line-number-at-pos (flymake-diagnostic-beg it))
             (substring-no-properties (flymake-diagnostic-text it)))))
(delete-char -2)
(insert "1")
(eglot--signal-textDocument/didChange)
(wait "no diagnostic" (lambda () (flymake-start) (not (flymake-diagnostics))))

(defun ask (method &optional params)
  (jsonrpc-request (eglot--current-server-or-lose) method
                   (or params (eglot--TextDocumentPositionParams))))

;; Hover, and a jump to the rule.
(goto-char (point-max))
(search-backward "two!")
(say "hover" (plist-get (plist-get (ask :textDocument/hover) :contents) :value))
(say "expansion" (plist-get (ask :rust-analyzer/expandMacro) :expansion))
(let ((found (xref-backend-definitions 'eglot "two")))
  (say "jump" (xref-location-line (xref-item-location (car found)))))

;; Where the first token of the expansion is from.
(let* ((found (ask :mbe/expansion (append (eglot--TextDocumentPositionParams) '(:origins t))))
       (origin (aref (plist-get found :origins) 0))
       (start (plist-get (plist-get (plist-get origin :location) :range) :start)))
  (say "origin" (list (plist-get start :line) (plist-get start :character))))

;; A trailing comma is typed, which a rule may accept, and taken away again.
(save-excursion
  (search-forward "1")
  (insert ",")
  (eglot--signal-textDocument/didChange)
  (let* ((actions (eglot-code-actions (1- (point)) (point)))
         (fix (seq-find (lambda (it) (string-prefix-p "Accept" (plist-get it :title))) actions)))
    (say "fix" (plist-get fix :title)))
  (delete-char -1)
  (eglot--signal-textDocument/didChange))

;; The symbols, for the menu.
(say "symbols" (mapcar #'car (eglot-imenu)))

;; The call is inlined by a code action.
(let* ((end (+ (point) 3))
       (actions (eglot-code-actions (point) (point)))
       (action (seq-find (lambda (it) (string-prefix-p "Inline" (plist-get it :title))) actions)))
  (ignore end)
  (say "action" (plist-get action :title))
  (eglot--apply-workspace-edit (plist-get action :edit)))
(say "inlined" (buffer-substring-no-properties (point-min) (point-max)))

(eglot-shutdown (eglot--current-server-or-lose))
(say "stopped" t)
(set-buffer-modified-p nil)
(kill-emacs 0)
