;;; emacs.el --- Tries dil-mode  -*- lexical-binding: t; -*-

;; `editors/check' starts it in an empty folder, with a stand-in for pipelens on the PATH that answers with the file `answer' and
;; notes its words in `words', and perhaps the real one below `real'.

(require 'ert)
(require 'dil-mode)

(defun dil-test-file (text)
  "Write TEXT to a file, and visit it."
  (when-let ((buffer (get-file-buffer "a program.dil")))
    (kill-buffer buffer))
  (write-region text nil "a program.dil" nil 'silent)
  (find-file "a program.dil"))

(defun dil-test-place (findings)
  "Where point stands, as line and column from 1, and the severity of the entry of FINDINGS that led there."
  (let ((kind (with-current-buffer findings
                (compilation--message->type (get-text-property compilation-current-error 'compilation-message)))))
    (list (line-number-at-pos) (1+ (- (point) (line-beginning-position))) (if (= kind 1) 'warning 'error))))

(defun dil-test-places (answer check)
  "The places that `next-error' goes to where CHECK is called and pipelens writes ANSWER."
  (write-region answer nil "answer" nil 'silent)
  (funcall check)
  (let ((findings next-error-last-buffer)
        (places nil)
        (first t))
    (while (get-buffer-process findings)
      (accept-process-output (get-buffer-process findings) 1))
    (while (condition-case nil (progn (next-error 1 first) t) (user-error nil))
      (setq first nil)
      (push (dil-test-place findings) places))
    (nreverse places)))

(defun dil-test-words ()
  "The words that pipelens was called with."
  (with-temp-buffer
    (insert-file-contents "words")
    (split-string (buffer-string) "\n" t)))

(defconst dil-test-answer
  "accepted
a program.dil:1:7: warning: unneeded
  1 | input x:8;
    |       ^
No output needs `x`.
a program.dil:2:9: scope: rule 2 item 1
  2 | \toutput y = x;
    |  ^
So it is.
")

(ert-deftest dil-test-findings ()
  (dil-test-file "input x:8;\n\toutput y = x;\n")
  (should (eq major-mode 'dil-mode))
  (should (equal compile-command "pipelens why a\\ program.dil"))
  (should (equal (dil-test-places dil-test-answer #'dil-check) '((1 7 warning) (2 9 error))))
  (should (equal (dil-test-words) '("why" "a program.dil")))
  (let ((dil-options "--fabric wide"))
    (should (equal (dil-test-places "accepted\n" #'dil-check) nil)))
  (should (equal (dil-test-words) '("why" "a program.dil" "--fabric" "wide"))))

(ert-deftest dil-test-compile ()
  (dil-test-file "input x:8;\n\toutput y = x;\n")
  (let ((places (dil-test-places dil-test-answer (lambda () (compile compile-command)))))
    (should (equal places '((1 7 warning) (2 9 error))))))

(ert-deftest dil-test-real ()
  (skip-unless (file-executable-p "real/pipelens"))
  (dil-test-file "input x:8;\n\toutput y = x + z;\n")
  (let ((dil-pipelens (expand-file-name "real/pipelens")))
    (should (equal (dil-test-places "" #'dil-check) '((2 17 error))))))

(defun dil-test-faces (text)
  "The words of TEXT that have a colour, each with its colour."
  (with-temp-buffer
    (insert text)
    (dil-mode)
    (font-lock-ensure)
    (let ((words nil) (at (point-min)))
      (while (< at (point-max))
        (let ((end (next-single-property-change at 'face nil (point-max))))
          (when (get-text-property at 'face)
            (push (cons (buffer-substring-no-properties at end) (get-text-property at 'face)) words))
          (setq at end)))
      (nreverse words))))

(ert-deftest dil-test-colours ()
  (should (equal (dil-test-faces "rec s_1:8 = 0x1F by cat(s_1@1, f(2)) / 8x; // for\n")
                 '(("rec" . font-lock-keyword-face) ("s_1" . font-lock-variable-name-face) ("8" . font-lock-constant-face)
                   ("0x1F" . font-lock-constant-face) ("by" . font-lock-keyword-face) ("cat" . font-lock-builtin-face)
                   ("1" . font-lock-constant-face) ("f" . font-lock-function-name-face) ("2" . font-lock-constant-face)
                   ("8x" . font-lock-warning-face) ("// " . font-lock-comment-delimiter-face)
                   ("for\n" . font-lock-comment-face)))))

(ert-deftest dil-test-indentation ()
  (with-temp-buffer
    (insert "fn f(a) {\nlet b = (\na\n);\n  return b; // }\n}\noutput y = f(x);\n")
    (dil-mode)
    (setq indent-tabs-mode nil)
    (indent-region (point-min) (point-max))
    (should (equal (buffer-string) "fn f(a) {\n    let b = (\n        a\n    );\n    return b; // }\n}\noutput y = f(x);\n"))))

(ert-deftest dil-test-comments ()
  (with-temp-buffer
    (insert "output y = x;\n")
    (dil-mode)
    (comment-region (point-min) (point-max))
    (should (equal (buffer-string) "// output y = x;\n"))))

;;; emacs.el ends here
