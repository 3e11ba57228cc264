;;; eglot.el --- Emacs with eglot as a client of the language server  -*- lexical-binding: t; -*-

;;; Commentary:

;; `emacs -q --batch -l eglot.el' in a folder with A.thy and B.thy: theories are opened, typed in, looked at.
;; The exit status is 1 where something differs.

;;; Code:

(package-initialize)
(require 'eglot)
(require 'flymake)

(define-derived-mode theory-mode prog-mode "Theory")
(add-to-list 'auto-mode-alist '("\\.thy\\'" . theory-mode))
(add-to-list 'eglot-server-programs '(theory-mode . ("python3" "-m" "pide" "lsp")))

(defun check (name holds)
  "Wait until HOLDS gives a value, and say NAME; end where it doesn't within half a minute."
  (let ((end (+ (float-time) 30)))
    (while (and (not (funcall holds)) (< (float-time) end))
      (accept-process-output nil 0.05))
    (unless (funcall holds)
      (message "failed: %s" name)
      (kill-emacs 1))
    (princ (format "ok: %s\n" name))))

(defun messages ()
  "What the diagnostics of the buffer say."
  (mapcar #'flymake-diagnostic-text (flymake-diagnostics)))

(defun says (text)
  "Whether a diagnostic says TEXT."
  (seq-some (lambda (message) (string-match-p (regexp-quote text) message)) (messages)))

(defun ask (method params)
  "The server's answer to a request METHOD with PARAMS."
  (jsonrpc-request (eglot--current-server-or-lose) method params :timeout 30))

(defun type-over (pattern text)
  "Replace the first match of PATTERN by TEXT, as one types, and send that."
  (goto-char (point-min))
  (re-search-forward pattern)
  (replace-match text t t)
  (eglot--signal-textDocument/didChange))

(find-file "B.thy")
(let ((eglot-sync-connect 30) (eglot-connect-timeout 60))
  (apply #'eglot--connect (eglot--guess-contact)))
(flymake-mode 1)
(flymake-start)
(check "the server is started" (lambda () (eglot-managed-p)))
(ask :pide/checked nil)
(check "a theory that is right has no diagnostics" (lambda () (null (flymake-diagnostics))))

(type-over "by a" "by k")
(check "an error comes under the key" (lambda () (says "unknown name k")))
(check "it stands at its proof"
       (lambda ()
         (let ((found (car (flymake-diagnostics))))
           (equal (buffer-substring (flymake-diagnostic-beg found) (flymake-diagnostic-end found)) "by k"))))
(type-over "by k" "by a")
(check "and goes when it is put right" (lambda () (null (flymake-diagnostics))))

(goto-char (point-min))
(re-search-forward "by ")
(let ((hover (ask :textDocument/hover (eglot--TextDocumentPositionParams))))
  (check "hover tells the formula and the state"
         (lambda () (string-match-p "fact A.a: P[^$]*theory B" (plist-get (plist-get hover :contents) :value)))))
(xref-find-definitions (xref-backend-identifier-at-point 'eglot))
(check "a definition in an imported theory is gone to"
       (lambda () (and (equal (buffer-name) "A.thy") (looking-at-p "a: \"P\""))))

(switch-to-buffer "B.thy")
(type-over "^end" "lemma e: \"P & Q --> P\"\nend")
(check "an open lemma is reported softly" (lambda () (says "the proof of e is missing")))
(re-search-backward "lemma e")
(eglot-code-actions (point) (point) "quickfix" t)
(check "the proof that was found is put in" (lambda () (save-excursion (re-search-forward "Q --> P\" by (impI" nil t))))
(eglot--signal-textDocument/didChange)
(check "and is right" (lambda () (null (flymake-diagnostics))))
(set-buffer-modified-p nil)
(eglot-shutdown (eglot-current-server))
;;; eglot.el ends here
